//! Words of `why`.

crate::phrases! {
    SUMMARY: "every broken rule of a refused file, and what would mend it", "свако прекршено правило одбијене датотеке, и шта би га поправило";
    HELP: "Prints, for each broken rule: the refusal's number and place, the rule and the item; the item's numbers, the limit, where it stands in the rule book, the nearest value that passes, and what else has to move. A line\n\n  change: element 1: clothoid 27223\n\ngives an item and its new line in the text that `voardusk show` prints. The changes of one rule mend it and break none that was kept; where several rules are broken, the changes that mend all of them come last. Of a road that keeps every rule one line is printed.\n\n  --limits   the speeds by class and terrain, and the limits by speed of both rule books, as tables\n\n    voardusk why examples/refusal-12.alignment\n    voardusk why --language sr roads/*.alignment\n    voardusk why --limits",
        "Исписује, за свако прекршено правило: број и место одбијања, правило и податак; бројеве тог податка, границу, где она стоји у правилнику, најближу вредност која пролази, и шта још мора да се помери. Ред\n\n  измена: element 1: clothoid 27223\n\nдаје податак и његов нови ред у тексту који исписује `voardusk show`. Измене једног правила поправљају њега и не крше ниједно које је било поштовано; ако је прекршено више правила, на крају стоје измене које поправљају сва. За пут који поштује сва правила исписује се један ред.\n\n  --limits   брзине по врсти пута и терену, и границе по брзинама из оба правилника, као табеле\n\n    voardusk why examples/refusal-12.alignment\n    voardusk why --language sr roads/*.alignment\n    voardusk why --limits";
    KEEPS: "keeps every rule: {0} mm long, {1} rows", "поштује сва правила: дужина {0} mm, број редова {1}";
    KEEPS_DATED: "keeps every rule ({2}): {0} mm long, {1} rows", "поштује сва правила ({2}): дужина {0} mm, број редова {1}";
    CHANGE: "change: {0}: {1}", "измена: {0}: {1}";
    TOGETHER: "all of these mended:", "све ово поправљено:";
    REMAINING: "to be designed anew: {0}", "пројектовати изнова: {0}";
    NOT_ASKED: "rules not asked, since one that they rest on is broken: {0}", "неиспитана правила, јер је прекршено оно на коме почивају: {0}";

    // where the limit stands
    RULE_BOOK: "rule book: {0}", "правилник: {0}";
    OLD_HANDBOOK: "old handbook: {0}", "стари приручник: {0}";
    SOURCE_SPEED: "{0}; design speed: annex 2, table 3-03", "{0}; рачунска брзина: прилог 2, табела 3-03";
    SOURCE_NONE: "no such limit; it is document 01's", "нема такве границе; она је из документа 01";
    SOURCE_7: "annex 2, 6.3, makes clothoids compulsory and has these forms (figure 6-04); the order is that of documents 01 and 02 (A.3)", "прилог 2, 6.3, прописује клотоиде и ове облике (слика 6-04); редослед је из докумената 01 и 02 (A.3)";
    SOURCE_8: "annex 2, chapter 10, „Највећа дужина правца (m)“", "прилог 2, поглавље 10, „Највећа дужина правца (m)“";
    SOURCE_9: "annex 2, chapter 10, „Најмања дужина правца (m)“", "прилог 2, поглавље 10, „Најмања дужина правца (m)“";
    SOURCE_10: "annex 2, chapter 10, „Минимални радијус min R (m)“", "прилог 2, поглавље 10, „Минимални радијус min R (m)“";
    SOURCE_10_OLD: "second table of source document 003, „Rmin (m)“, for roads contracted before 2012-01-01", "друга табела изворног документа 003, „Rmin (m)“, за путеве уговорене пре 2012-01-01";
    SOURCE_11: "annex 2, table 6-01, „min L_k (m)“, and source document 003, „minLk“", "прилог 2, табела 6-01, „min L_k (m)“, и изворни документ 003, „minLk“";
    SOURCE_12: "annex 2, chapter 10, „Минимални параметар клотоиде min A (m)“; A² = R × L: annex 2, 6.3", "прилог 2, поглавље 10, „Минимални параметар клотоиде min A (m)“; A² = R × L: прилог 2, 6.3";
    SOURCE_12_EGG: "annex 2, chapter 10, „Минимални параметар клотоиде min A (m)“; A² = L × R1 × R2 / |R1 − R2|: document 02, A.3", "прилог 2, поглавље 10, „Минимални параметар клотоиде min A (m)“; A² = L × R1 × R2 / |R1 − R2|: документ 02, A.3";
    SOURCE_12_OLD: "second table of source document 003, „Lmin (m)“, for roads contracted before 2012-01-01", "друга табела изворног документа 003, „Lmin (m)“, за путеве уговорене пре 2012-01-01";
    SOURCE_13: "annex 2, chapter 10, „Максимални подужни нагиб max i_д (%)“, not the value in brackets", "прилог 2, поглавље 10, „Максимални подужни нагиб max i_д (%)“, а не вредност у загради";
    SOURCE_14: "annex 2, 7.2.2: curves that touch are the limiting case", "прилог 2, 7.2.2: гранични случај су кривине које се додирују";
    SOURCE_15_SAG: "annex 2, chapter 10, „Минимални радијус конкавног заобљења min R_v конк. (m)“", "прилог 2, поглавље 10, „Минимални радијус конкавног заобљења min R_v конк. (m)“";
    SOURCE_15_CREST: "annex 2, chapter 10, „Минимални радијус конвексног заобљења min R_v конв. (m)“", "прилог 2, поглавље 10, „Минимални радијус конвексног заобљења min R_v конв. (m)“";
    SOURCE_17: "annex 2, chapter 10, „Минимални попречни нагиб min i_п (%)“ and „Максимални попречни нагиб max i_п (%)“, not the exceptional 8 %", "прилог 2, поглавље 10, „Минимални попречни нагиб min i_п (%)“ и „Максимални попречни нагиб max i_п (%)“, а не изузетних 8 %";
    SOURCE_18: "the ramp limit is the file's own; annex 2, table 8-02 and under table 6-02, allows {0} ppm at {1} km/h; lane width: annex 2, chapter 10, „Ширина возне траке t_v (m)“", "гранични нагиб рампе витоперења је из датотеке; прилог 2, табела 8-02 и испод табеле 6-02, дозвољава {0} ppm при {1} km/h; ширина возне траке: прилог 2, поглавље 10, „Ширина возне траке t_v (m)“";
    SOURCE_19: "annex 2, 8.1: one-sided fall towards the middle of the bend; R': annex 2, chapter 10, „Минимални радијус R'(i_п=-2,5%) (m)“", "прилог 2, 8.1: једнострани пад према средишту кривине; R': прилог 2, поглавље 10, „Минимални радијус R'(i_п=-2,5%) (m)“";
    SOURCE_22: "no such limit; document 02, A.1: a day of the Gregorian calendar", "нема такве границе; документ 02, A.1: дан грегоријанског календара";
    SOURCE_23_EGG: "annex 2, 6.3, „Јајаста \"O\" - крива“, between arcs of the same turn and different radii; the greatest radius is document 02's (A.3)", "прилог 2, 6.3, „Јајаста \"O\" - крива“, између истосмерних лукова различитих радијуса; највећи радијус је из документа 02 (A.3)";
    SOURCE_23_PAIR: "annex 2, 6.3, „Прекретна линија \"S\" - крива“, between arcs of opposite turn; document 02 (A.3) has no „\"C\" - крива“, two clothoids between arcs of the same turn", "прилог 2, 6.3, „Прекретна линија \"S\" - крива“, између супротно усмерених лукова; документ 02 (A.3) нема „\"C\" - криву“, две клотоиде између истосмерних лукова";

    // the limit
    LIMIT: "limit: {0}", "граница: {0}";
    LIMIT_AT_SPEED: "limit: {0} {1} at {2} km/h ({3})", "граница: {0} {1} при {2} km/h ({3})";
    SAME_IN_BOTH: "contracted {0}, the same in both rule books", "уговор од {0}, исто у оба правилника";
    LIMIT_5: "a plan of at most {0} mm", "ситуациони план дуг највише {0} mm";
    LIMIT_6: "the tangents are together as long as the plan", "тангенте су заједно дуге колико и ситуациони план";
    LIMIT_7: "a straight first and last, a clothoid before and after each arc; from arc to arc clothoid, straight, clothoid, or one clothoid (egg curve), or two clothoids (reversing bend)", "правац на почетку и на крају, клотоида пре и после сваког кружног лука; од лука до лука клотоида, правац, клотоида, или једна клотоида (јајаста крива), или две клотоиде (прекретна S-крива)";
    LIMIT_12: "{0}, so length × radius at least {1} mm²", "{0}, дакле дужина × радијус најмање {1} mm²";
    LIMIT_12_EGG: "{0}, so length × R1 × R2 at least A min² × |R1 − R2| = {1} mm³", "{0}, дакле дужина × R1 × R2 најмање min A² × |R1 − R2| = {1} mm³";
    LIMIT_14: "a tangent at least as long as the half lengths at its ends together", "тангента дуга најмање колико и обе полудужине на њеним крајевима заједно";
    LIMIT_16: "the first point at 0, each beyond the one before it, the last at the road's end", "прва тачка на 0, свака иза претходне, последња на крају пута";
    LIMIT_17: "from {0} to {1} ppm in size, on each side", "од {0} до {1} ppm по апсолутној вредности, на свакој страни";
    LIMIT_18: "lane width × change at most ramp limit × distance; here {0} and {1}", "ширина возне траке × промена највише гранични нагиб рампе витоперења × растојање; овде {0} и {1}";
    LIMIT_19: "the same crossfall on the whole arc, left = −right, the inner side ({0}) negative", "исти попречни нагиб на целом луку, лево = −десно, унутрашња страна ({0}) негативна";
    LIMIT_19_RADIUS: "{0}; or −{1} ppm on both sides with a radius of at least {2} mm", "{0}; или −{1} ppm на обе стране са радијусом од најмање {2} mm";
    LIMIT_23_EGG: "one clothoid between two arcs (egg curve): arcs of the same turn, radii that differ, each at most {0} mm", "једна клотоида између два лука (јајаста крива): истосмерни лукови, различити радијуси, сваки највише {0} mm";
    LIMIT_23_PAIR: "two clothoids between two arcs (reversing bend): arcs of opposite turn", "две клотоиде између два лука (прекретна S-крива): супротно усмерени лукови";

    // the item's numbers
    NUMBERS_LENGTH: "length {0} mm, from station {1} to {2}", "дужина {0} mm, од стационаже {1} до {2}";
    NUMBERS_5: "{0}; the plan has {1} elements and is {2} mm long", "{0}; ситуациони план (број елемената: {1}) дуг је {2} mm";
    NUMBERS_6: "plan {0} mm (elements: {1}), tangents {2} mm (tangents: {3}): the tangents are {4} mm too {5}; the last crossfall point is at {6}", "ситуациони план {0} mm (елемената: {1}), тангенте {2} mm (тангената: {3}): тангенте су за {4} mm {5}; последња тачка попречног нагиба је на {6}";
    TOO_SHORT: "short", "прекратке";
    TOO_LONG: "long", "предугачке";
    NUMBERS_7: "there is {0} where {1} is due", "овде стоји {0}, а на реду је {1}";
    NUMBERS_7_SHORT: "the last element is {0}; {1} is due next", "последњи елемент је {0}; следећи на реду је {1}";
    NUMBERS_9: "{0}; the arcs before and after it are {1} and {2}", "{0}; лукови пре и после њега су {1} и {2}";
    ARC: "element {0} (radius {1} mm)", "елемент {0} (радијус {1} mm)";
    ARCS: "{0} and {1}", "{0} и {1}";
    NUMBERS_10: "radius {0} mm ({1}); {2}", "радијус {0} mm ({1}); {2}";
    NUMBERS_12: "{0}; its arc is {1}; length × radius is {2} mm²", "{0}; њен лук је {1}; дужина × радијус је {2} mm²";
    NUMBERS_12_EGG: "{0}; egg curve between {1}; length × R1 × R2 is {2} mm³", "{0}; јајаста крива, лукови пре и после ње су {1}; дужина × R1 × R2 је {2} mm³";
    NUMBERS_13: "grade {0} ppm; {1}", "подужни нагиб {0} ppm; {1}";
    NUMBERS_14: "{0}; half lengths {1} mm at its start and {2} mm at its end, together {3} mm", "{0}; полудужине {1} mm на почетку и {2} mm на крају, заједно {3} mm";
    NUMBERS_15: "half length {0} mm at station {1}; grades {2} and {3} ppm, a change of {4} ppm: {5}", "полудужина {0} mm на стационажи {1}; подужни нагиби {2} и {3} ppm, промена {4} ppm: {5}";
    NUMBERS_16_FIRST: "station {0}; it is the first point", "стационажа {0}; то је прва тачка";
    NUMBERS_16: "station {0}; point {1} before it is at {2}", "стационажа {0}; тачка {1} пре ње је на {2}";
    NUMBERS_16_LAST: "station {0}; it is the last point, and the road ends at {1}", "стационажа {0}; то је последња тачка, а пут се завршава на {1}";
    NUMBERS_17: "left {0} ppm, right {1} ppm, at station {2}", "лево {0} ppm, десно {1} ppm, на стационажи {2}";
    NUMBERS_18: "distance {0} mm, from station {1} to {2}; change {3} ppm on the left and {4} ppm on the right; lane width {5} mm, ramp limit {6} ppm", "растојање {0} mm, од стационаже {1} до {2}; промена {3} ppm лево и {4} ppm десно; ширина возне траке {5} mm, гранични нагиб рампе витоперења {6} ppm";
    NUMBERS_19: "crossfall left / right in ppm: {0}", "попречни нагиб лево / десно у ppm: {0}";
    NUMBERS_23_EGG: "{0}; egg curve between {1}: {2}", "{0}; јајаста крива, лукови пре и после ње су {1}: {2}";
    NUMBERS_23_PAIR: "{0}; with element {1} a pair of clothoids between {2}: the same turn", "{0}; са елементом {1} пар клотоида, лукови пре и после њега су {2}: истосмерни";
    EQUAL_RADII: "equal radii", "једнаки радијуси";
    OPPOSITE_TURNS: "opposite turns", "супротно усмерени";
    FLAT_RADIUS: "a radius over the limit", "радијус изнад границе";
    AT_START: "{0} / {1} at its start", "{0} / {1} на почетку";
    AT_END: "{0} / {1} at its end", "{0} / {1} на крају";
    AT_POINT: "{0} / {1} at point {2}", "{0} / {1} у тачки {2}";
    ABOUT: "about {0}", "око {0}";
    STRAIGHT: "a straight", "правац";
    ARC_KIND: "an arc", "кружни лук";
    CLOTHOID: "a clothoid", "клотоида";
    RIGHT_TURN: "right turn", "десна кривина";
    LEFT_TURN: "left turn", "лева кривина";
    RIGHT: "right", "десна";
    LEFT: "left", "лева";
    SAG: "a sag", "конкавно заобљење";
    CREST: "a crest", "конвексно заобљење";

    // the nearest value that passes
    PASSES: "passes: {0}", "пролази: {0}";
    LENGTH: "length", "дужина";
    RADIUS: "radius", "радијус";
    AT_LEAST: "{0} {1} mm or more, now {2} mm less", "{0} {1} mm и више, сада за {2} mm мање";
    AT_MOST: "{0} {1} mm or less, now {2} mm more", "{0} {1} mm и мање, сада за {2} mm више";
    PASSES_5: "no length: the plan has to end before this element", "ниједна дужина: ситуациони план мора да се заврши пре овог елемента";
    PASSES_6: "tangents of {0} mm together, or a plan of {1} mm", "тангенте дуге заједно {0} mm, или ситуациони план дуг {1} mm";
    PASSES_7: "{0} here, and so on in this order", "{0} на овом месту, и даље тим редом";
    PASSES_12: "length {0} mm or more (A min² / radius, rounded up), now {1} mm less", "дужина {0} mm и више (min A² / радијус, заокружено навише), сада за {1} mm мање";
    PASSES_12_EGG: "length {0} mm or more (A min² × |R1 − R2| / (R1 × R2), rounded up), now {1} mm less", "дужина {0} mm и више (min A² × |R1 − R2| / (R1 × R2), заокружено навише), сада за {1} mm мање";
    PASSES_13: "grade from −{0} to {0} ppm, now {1} ppm too much", "подужни нагиб од −{0} до {0} ppm, сада за {1} ppm превише";
    PASSES_15: "half length {0} mm or more ({1} × change / 2,000,000, rounded up), now {2} mm less", "полудужина {0} mm и више ({1} × промена / 2.000.000, заокружено навише), сада за {2} mm мање";
    PASSES_16: "station {0}", "стационажа {0}";
    PASSES_16_BETWEEN: "a station from {0} to {1}", "стационажа од {0} до {1}";
    PASSES_16_BEYOND: "station {0} or more", "стационажа {0} и више";
    PASSES_17: "left {0} ppm, right {1} ppm", "лево {0} ppm, десно {1} ppm";
    PASSES_18: "distance {0} mm or more (lane width × change / ramp limit, rounded up), now {1} mm less", "растојање {0} mm и више (ширина возне траке × промена / гранични нагиб рампе витоперења, заокружено навише), сада за {1} mm мање";
    PASSES_18_RAMP: "{0}; or, with this distance, a ramp limit of {1} ppm or more", "{0}; или, са овим растојањем, гранични нагиб рампе витоперења {1} ppm и више";
    PASSES_18_STEEP: "{0}, which is over the rule book's", "{0}, што је изнад вредности из правилника";
    PASSES_19: "left {0} to {1} ppm and right its opposite, the same from its start to its end", "лево {0} до {1} ppm и десно супротно, исто од почетка до краја лука";

    PASSES_19_LEFT: "right {0} to {1} ppm and left its opposite, the same from its start to its end", "десно {0} до {1} ppm и лево супротно, исто од почетка до краја лука";
    PASSES_23_EQUAL: "radii that differ, for this rule by 1 mm; the designer has to decide: one arc with radius {0} mm in place of these three elements, or an egg curve between two radii that are meant to differ", "различити радијуси, за ово правило бар за 1 mm; пројектант треба да одлучи: један лук радијуса {0} mm уместо ова три елемента, или јајаста крива између два радијуса који заиста треба да се разликују";
    PASSES_23_BOTH: "one radius {0} mm or less, the other {1} mm or less, and not the same", "један радијус {0} mm и мање, други {1} mm и мање, и не исти";
    PASSES_23_OPPOSITE: "between these arcs two clothoids (reversing bend), or clothoid, straight, clothoid", "између ових лукова две клотоиде (прекретна S-крива), или клотоида, правац, клотоида";
    PASSES_23_PAIR: "between these arcs one clothoid of {0} mm or more (egg curve), or clothoid, straight, clothoid", "између ових лукова једна клотоида од {0} mm и више (јајаста крива), или клотоида, правац, клотоида";
    PASSES_23_STRAIGHT: "between these arcs clothoid, straight, clothoid", "између ових лукова клотоида, правац, клотоида";

    // what the other rule book would say
    KEPT_TODAY: "contracted on 2012-01-01 or later, this element would keep this rule: {0} {1} in today's rule book", "да је пут уговорен 2012-01-01 или касније, овај елемент би поштовао ово правило: {0} {1} по важећем правилнику";
    KEPT_BY_OLD: "contracted before 2012-01-01, this element would keep this rule: {0} {1} in the old handbook", "да је пут уговорен пре 2012-01-01, овај елемент би поштовао ово правило: {0} {1} по старом приручнику";

    // what moves
    MOVES: "then: {0}", "тада: {0}";
    MOVES_INSTEAD: "instead, since there is no room for that: {0}", "уместо тога, јер за то нема места: {0}";
    NOTHING_MOVES: "nothing else changes", "ништа друго се не мења";
    ROAD_LONGER: "the road becomes {0} mm longer", "пут постаје дужи за {0} mm";
    ROAD_SHORTER: "the road becomes {0} mm shorter", "пут постаје краћи за {0} mm";
    ELEMENT_LENGTH: "element {0} becomes {1} mm long", "елемент {0} добија дужину {1} mm";
    ARC_RADIUS: "element {0} gets a radius of {1} mm", "елемент {0} добија радијус {1} mm";
    TANGENT_LENGTH: "tangent {0} becomes {1} mm long", "тангента {0} добија дужину {1} mm";
    GRADE: "tangent {0} gets a grade of {1} ppm", "тангента {0} добија подужни нагиб {1} ppm";
    HALF_LENGTH: "vertex {0} gets a half length of {1} mm", "прелом {0} добија полудужину {1} mm";
    POINT_FORTH: "point {0} moves {1} mm towards the end", "тачка {0} помера се за {1} mm ка крају";
    POINT_BACK: "point {0} moves {1} mm towards the start", "тачка {0} помера се за {1} mm ка почетку";
    POINTS_FORTH: "points {0} to {1} move {2} mm towards the end", "тачке {0} до {1} померају се за {2} mm ка крају";
    POINTS_BACK: "points {0} to {1} move {2} mm towards the start", "тачке {0} до {1} померају се за {2} mm ка почетку";
    CROSSFALLS: "point {0} gets {1} ppm left and {2} ppm right", "тачка {0} добија {1} ppm лево и {2} ppm десно";
    CROSSFALLS_OF_SEVERAL: "points {0} to {1} get {2} ppm left and {3} ppm right", "тачке {0} до {1} добијају {2} ppm лево и {3} ppm десно";
    RAMP_LIMIT: "the ramp limit becomes {0} ppm", "гранични нагиб рампе витоперења постаје {0} ppm";
    END_HIGHER: "heights beyond change: the road's end is {0} mm higher", "висине иза тога се мењају: крај пута је виши за {0} mm";
    END_LOWER: "heights beyond change: the road's end is {0} mm lower", "висине иза тога се мењају: крај пута је нижи за {0} mm";
    END_NEARLY: "heights beyond change: the road's end by less than 1 mm", "висине иза тога се мењају: на крају пута за мање од 1 mm";
    TURNS_LESS: "with the same lengths the bend turns by a smaller angle", "при истим дужинама кривина скреће за мањи угао";
    TURNS_MORE: "the bend turns by a greater angle", "кривина скреће за већи угао";

    // why nothing was found
    UNMENDED: "no change of the lines that are there was found that breaks no other rule ({0}): the rest has to be designed anew", "није нађена измена постојећих редова која не крши друго правило ({0}): остало треба пројектовати изнова";
    OBSTACLE_RULE: "the first one tried would give R {0} {1}, {2}", "прва испробана би дала R {0} {1}, {2}";
    OBSTACLE_RANGE: "the first one tried would have a number outside its range", "прва испробана би имала број изван опсега";
    OBSTACLE_DISPUTED: "the proved library and the second reading of the paper differ about the first one tried", "доказана библиотека и друго читање прописа се разликују о првој испробаној";
    OBSTACLE_LINES: "lines have to be added or taken away", "редове треба додати или уклонити";

    // files that cannot be read
    BYTES_THERE: "the file has at least {0} bytes; an alignment file has at most {1}", "датотека има најмање {0} бајта; датотека трасе има највише {1}";
    LOOK_1: "look at: whether this is an alignment file; whether two files were joined", "провери: да ли је ово датотека трасе; да ли су две датотеке спојене";
    LOOK_2: "look at: a file cut short in transfer; a count before it that is too great; how the exporting program writes numbers", "провери: датотека скраћена при преносу; превелик број података пре њега; како програм који извози пише бројеве";
    LOOK_TEXT: "look at: whether this is a text; `voardusk make` makes the alignment file of it", "провери: да ли је ово текст; `voardusk make` од њега прави датотеку трасе";
    RANGE: "range: {0}", "опсег: {0}";
    LOOK_3: "look at: the units (mm and ppm); the sign; a count before it that is wrong, so that one number is taken for another", "провери: јединице (mm и ppm); предзнак; погрешан број података пре њега, због чега се један број чита као други";
    BYTES_FOLLOW: "byte {0}: the last number ends before it; bytes from there on: {1}", "бајт {0}: пре њега се завршава последњи број; бајтова одатле: {1}";
    LOOK_4: "look at: a count that is too small; a line end or a second file added in transfer", "провери: премали број података; знак краја реда или друга датотека додата при преносу";

    // a contract date that is no day
    NO_DATE: "a date has eight digits: four of the year, two of the month, two of the day", "датум има осам цифара: четири за годину, две за месец, две за дан";
    BEFORE_FIRST: "the year {0} is before 1950", "година {0}. је пре 1950.";
    AFTER_LAST: "the year {0} is after 2099", "година {0}. је после 2099.";
    NO_MONTH: "there is no month {0}", "не постоји месец {0}";
    NO_DAY: "there is no day 0", "не постоји дан 0";
    NO_LEAP_YEAR: "{0} is no leap year: its February has 28 days", "{0}. није преступна година: њен фебруар има 28 дана";
    DAYS_OF_MONTH: "{0} {1} has {2} days", "{0} {1}. има {2} дана";
    LONG_MONTH: "{0} {1} has 31 days", "{0} {1}. има 31 дан";
    DAY_MONTH_YEAR: "read as day, month, year it is {0}", "читан редом дан, месец, година, датум је {0}";
    MONTH_DAY_YEAR: "read as month, day, year it is {0}", "читан редом месец, дан, година, датум је {0}";
    YEAR_DAY_MONTH: "read as year, day, month it is {0}", "читан редом година, дан, месец, датум је {0}";
    OR: "{0} or {1}", "{0} или {1}";
    CONTRACT_TELLS: "the contract has to tell the day", "дан треба узети из уговора";
    CONTRACT_DECIDES: "the contract has to tell the day, since the day decides the rule book", "дан треба узети из уговора, јер он одлучује о правилнику";
    NOT_READ: "nothing after the date was read: the other rules are asked once it is a day", "ништа иза датума није прочитано: остала правила се испитују тек када датум буде исправан";
    LOOK_22: "look at: the contract; the order year, month, day; a file without a contract date begins with its class, not with 9", "провери: уговор; редослед година, месец, дан; датотека без датума уговора почиње врстом пута, а не бројем 9";
}
