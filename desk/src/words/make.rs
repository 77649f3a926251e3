//! Words of `make`.

crate::phrases! {
    SUMMARY: "an alignment file from text", "датотека трасе из текста";
    HELP: "Writes the file to standard output, or with `-o FILE` into a file, whole or not at all. TEXT may be -, standard input. A value outside its range is written all the same and named on standard error: judging is the work of `voardusk list`. A text that is no alignment is turned away with status 1, its line named.\n\n    voardusk make examples/crest.txt -o crest.alignment\n    voardusk show crest.alignment\n\n{0}",
        "Пише датотеку на стандардни излаз, или са `-o FILE` у датотеку, цело или никако. TEXT може бити -, стандардни улаз. Вредност ван опсега се ипак записује и наводи на стандардном излазу за грешке: провера је посао наредбе `voardusk list`. Текст који није траса одбија се са статусом 1, уз навођење реда.\n\n    voardusk make examples/crest.txt -o crest.alignment\n    voardusk show crest.alignment\n\n{0}";
    TERMINAL: "the file is no text for a terminal; name a file: `voardusk make TEXT -o FILE`", "датотека није текст за терминал; треба навести датотеку: `voardusk make TEXT -o FILE`";
    MORE_REMARKS: "and {0} more values outside their ranges", "и још вредности ван опсега: {0}";
    FILE_TOO_LONG: "the file would be longer than {0} bytes", "датотека би била дужа од {0} бајтова";
    NO_TEXT: "byte {0} of the line, {1} hexadecimal, is no text in UTF-8; `voardusk show` shows an alignment file as text", "{0}. бајт реда, хексадецимално {1}, није текст у UTF-8; `voardusk show` приказује датотеку трасе као текст";
    UNKNOWN_KEYWORD: "`{0}` begins no line; a line begins with one of {1}", "ниједан ред не почиње са `{0}`; ред почиње једном од речи {1}";
    AFTER_KEYWORD: "after `{0}` come: {1}; for instance `{2}`", "иза `{0}` долази: {1}; на пример `{2}`";
    TOO_MUCH: "`{0}` is too much; {1}", "`{0}` је сувишно; {1}";
    NO_NUMBER: "`{0}` is no number", "`{0}` није број";
    NO_DATE: "`{0}` is no date; a date is written as `2011-12-31` or `20111231`", "`{0}` није датум; датум се пише као `2011-12-31` или `20111231`";
    READ_AS_DATED: "a file that begins with {0} is read as one with a contract date", "датотека која почиње са {0} чита се као она са датумом уговора";
    NO_WHOLE_NUMBER: "`{0}` is no whole number; metres and percent are written with their unit, as `120.5 m` and `2.5 %`, and nothing separates the thousands", "`{0}` није цео број; метри и проценти се пишу са јединицом, као `120,5 m` и `2,5 %`, а хиљаде се не одвајају";
    WITHOUT_DECIMALS: "`{0}`: {1} are a whole number, without point or comma", "`{0}`: {1} се пише као цео број, без тачке и зареза";
    NO_UNIT: "`{0}`: there is no unit here", "`{0}`: овде нема јединице";
    WRONG_UNIT: "`{0}`: the unit here is {1} or {2}", "`{0}`: јединица је овде {1} или {2}";
    NOT_EXACT: "`{0}` is no whole number of {1}; the nearest are {2} {4} and {3} {4}", "`{0}` није цео број {1}; најближе вредности су {2} {4} и {3} {4}";
    UNWRITABLE: "`{0}` cannot be written: the numbers here go from {1} to {2}{3}", "`{0}` не може да се запише: бројеви овде иду од {1} до {2}{3}";
    NO_PAIRS: "`{0}`: bytes are pairs of hexadecimal digits", "`{0}`: бајтови су парови хексадецималних цифара";
    NO_TIMES: "after `times` comes one whole number, the last word of the line", "иза `times` долази један цео број, последња реч у реду";
    TOO_LATE: "`{0}` comes too late; the order is {1}", "`{0}` долази прекасно; редослед је {1}";
    TWICE: "a second `{0}`", "други пут `{0}`";
    NO_PART: "the text has no {0}; a whole text has, in this order, {1}", "текст нема {0}; цео текст има, овим редом, {1}";
    NEEDS_CURVE: "a tangent that another one follows has `{0}` and a half length, 0 where there is no vertical curve", "тангента иза које следи друга има `{0}` и полудужину, 0 где нема вертикалне кривине";
    CURVE_AFTER_LAST: "the last tangent has no `{0}`", "последња тангента нема `{0}`";
}
