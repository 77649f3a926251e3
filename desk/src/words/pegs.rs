//! Words of `pegs`.

crate::phrases! {
    SUMMARY: "the row of each peg of a list, in one go", "ред сваког кочића из списка, одједном";
    HELP: "PEGS is a text with the stations of up to 2,000 pegs, ascending, equal ones allowed: one station a line, or columns as a spreadsheet or a total station exports them. Prints the rows as the library gives them, one behind another, each the row that `voardusk row` prints. FILE or PEGS may be -, standard input.

A station is written as for `voardusk row`: a whole number of millimetres, or metres as 120.5m or 0+120.500. A number with decimals and without a unit, as 95.850, is turned away; and where commas separate the columns, a whole number with a digit right behind its comma, as 95,850, but under the head station_mm.

Columns are separated by semicolons, tabs or commas, by what the first line has; a cell may stand in double quotes. A head line names the station's column: station, chainage, stacionaža or стационажа, also with the unit, as station_mm. Under station_m a number is read as if m stood behind it. Without a head line the first line has one column that begins with a digit or has a plus sign, and that is the station's; where it has two, a head line is needed. No line has more columns than the first. Empty lines are passed over, and every other line is a peg. A byte order mark and any line ends are accepted. The text has at most 4,000,000 bytes.

A peg that lies below the one before it, beyond the road's end, or behind 2,000 others is refused with 24, after the file's own refusals; the place of the first one is counted from 0. The words beside it count pegs from 1 and name the line. A text that is no list of stations is turned away with status 1, its line named.

  --csv   the rows with commas and a head line, and behind the numbers of each row the other
          columns of its peg, as its name

    voardusk pegs examples/mountain-access-road.alignment examples/mountain-hairpin.pegs
    voardusk pegs --csv examples/mountain-access-road.alignment examples/mountain-bend.csv > rows.csv",
        "PEGS је текст са стационажама највише 2.000 кочића, растућим редом, при чему једнаке смеју да се понове: по једна стационажа у реду, или колоне како их извози програм за табеле или тотална станица. Исписује редове онако како их даје библиотека, један за другим, сваки исти као што га исписује `voardusk row`. FILE или PEGS може бити -, стандардни улаз.

Стационажа се пише као за `voardusk row`: цео број милиметара, или метри као 120.5m или 0+120.500. Број са децималама и без јединице, као 95.850, одбацује се; а где зарез одваја колоне, и цео број са цифром одмах иза зареза, као 95,850, осим испод наслова station_mm.

Колоне одваја тачка-зарез, табулатор или зарез, према првом реду текста; ћелија може бити под двоструким наводницима. Насловни ред именује колону стационаже: station, chainage или стационажа, у оба писма, и са јединицом, као station_mm. Испод station_m број се чита као да иза њега стоји m. Без насловног реда први ред има једну колону која почиње цифром или садржи знак плус, и то је стационажа; ако су такве две, потребан је насловни ред. Ниједан ред нема више колона од првог. Празни редови се прескачу, а сваки други ред је кочић. Ознака редоследа бајтова и сваки знак краја реда су дозвољени. Текст има највише 4.000.000 бајтова.

За кочић чија је стационажа мања од претходне, или је иза краја пута, или пре којег има 2.000 других, исписује се одбијање 24, после одбијања саме датотеке; место првог таквог броји се од 0. Речи уз то броје кочиће од 1 и наводе ред текста. Текст који није списак стационажа одбацује се са статусом 1, уз навођење реда.

  --csv   редови са зарезима и насловним редом, а иза бројева сваког реда остале колоне
          његовог кочића, на пример назив

    voardusk pegs examples/mountain-access-road.alignment examples/mountain-hairpin.pegs
    voardusk pegs --csv examples/mountain-access-road.alignment examples/mountain-bend.csv > rows.csv";

    // a list that is refused with 24
    FALLS: "{0}: refused with 24 at place {1}: peg {2} (line {3}), station {4}, lies below the peg before it, station {5} (line {6}); stations have to ascend: sort the list by station", "{0}: одбијање 24, место {1}: {2}. кочић ({3}. ред текста), стационажа {4}, мања је од претходне, {5} ({6}. ред текста); стационаже морају да расту: списак треба сортирати по стационажи";
    BEYOND: "{0}: refused with 24 at place {1}: peg {2} (line {3}), station {4}, is beyond the road's end, {5}; take out the pegs beyond it, or see whether the list is of this road", "{0}: одбијање 24, место {1}: {2}. кочић ({3}. ред текста), стационажа {4}, иза је краја пута, {5}; треба изоставити кочиће иза краја, или проверити да ли је списак за овај пут";
    TOO_MANY: "{0}: refused with 24 at place {1}: peg {2} (line {3}) is one too many: a list has at most {4} pegs; split it into several lists", "{0}: одбијање 24, место {1}: {2}. кочић ({3}. ред текста) је сувишан: списак има највише {4} кочића; треба га поделити на више спискова";

    // a text that is no list
    NO_TEXT: "this is no text; the alignment file comes first, then the pegs: `voardusk pegs FILE PEGS`", "ово није текст; прво долази датотека трасе, па кочићи: `voardusk pegs FILE PEGS`";
    OPEN_QUOTE: "a quote is not closed, or something stands behind it", "наводник није затворен, или нешто стоји иза њега";
    NO_COLUMN: "`{0}` is no station, and no head line that names the station's column: `station` or `station_m`, `chainage`, `stacionaža`, `стационажа`", "`{0}` није стационажа, ни насловни ред који именује колону стационаже: `station` или `station_m`, `chainage`, `стационажа`";
    SEVERAL_HEADS: "columns {0} and {1} are both headed as the station's", "{0}. и {1}. колона су обе насловљене као стационажа";
    SEVERAL_NUMBERS: "columns {0} and {1} may both be the station: a head line has to name it, as `name,station`; decimals are written behind a point, as `0+095.850`", "{0}. и {1}. колона могу обе бити стационажа: треба је именовати у насловном реду, као `name,station`; децимале се пишу иза тачке, као `0+095.850`";
    MORE_COLUMNS: "columns here: {0}, in the first line: {1}; decimals are written behind a point, as `0+095.850`, or the columns are separated by semicolons", "колона у овом реду: {0}, у првом: {1}; децимале се пишу иза тачке, као `0+095.850`, или се колоне одвајају тачком-зарезом";
    COMMA: "`{0}` may be one number with a decimal comma: a station in millimetres stands under the head `station_mm`; decimals are written behind a point, as `0+095.850`, or the columns are separated by semicolons", "`{0}` може бити један број са децималним зарезом: стационажа у милиметрима стоји испод наслова `station_mm`; децимале се пишу иза тачке, као `0+095.850`, или се колоне одвајају тачком-зарезом";
    EMPTY_STATION: "column {0} has no station", "{0}. колона нема стационажу";
    DECIMALS: "`{0}` is no whole number of millimetres; metres are written with their unit, as `95.850m` or `0+095.850`, or stand under the head `station_m`", "`{0}` није цео број милиметара; метри се пишу са јединицом, као `95.850m` или `0+095.850`, или стоје испод наслова `station_m`";
}
