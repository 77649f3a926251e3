//! Words of more than one command.

crate::phrases! {
    SAID_BY: "voardusk: {0}", "voardusk: {0}";
    ABOUT_FILE: "{0}: {1}", "{0}: {1}";
    STANDARD_INPUT: "standard input", "стандардни улаз";
    STANDARD_OUTPUT: "standard output", "стандардни излаз";
    UNREAD: "{0} cannot be read: {1}", "{0} не може да се прочита: {1}";
    UNWRITTEN: "{0} was not written: {1}", "{0} није записано: {1}";
    CLOSED: "it is closed", "затворен је";
    IS_FOLDER: "it is a folder", "то је фасцикла";
    NO_FOLDER: "it is no folder", "то није фасцикла";
    REFUSED: "{0}: refused with {1} at {3} {4}: {2}; `voardusk why` says more", "{0}: одбијање {1}, {3} {4}: {2}; `voardusk why` каже више";
    REFUSED_NO_PLACE: "{0}: refused with {1}: {2}; `voardusk why` says more", "{0}: одбијање {1}: {2}; `voardusk why` каже више";
    HEADING: "R {0} {1}: {2}", "R {0} {1}: {2}";
    RULE_AND_ITEM: "{0}: {1} {2}", "{0}: {1} {2}";
    STATION_REFUSED: "{0}: refused with 21: station {1} is beyond the road's end", "{0}: одбијање 21: стационажа {1} је иза краја пута";
    BYTE: "byte", "бајт";
    ELEMENT: "element", "елемент";
    TANGENT: "tangent", "тангента";
    VERTEX: "vertex", "прелом";
    POINT: "crossfall point", "тачка попречног нагиба";
    DISAGREEMENT: "{0}: the proved library and the second reading of the paper differ ({1}); nothing is shown that one of them denies", "{0}: доказана библиотека и друго читање прописа се разликују ({1}); не приказује се ништа што једно од њих пориче";
    DIFFERENT_ROWS: "their rows differ", "редови се разликују";
    DIFFERENT_REFUSALS: "{0} and {1}", "{0} и {1}";
    LISTED: "listed", "исписано";
    AT_LINE: "line {0}: {1}", "{0}. ред текста: {1}";
    TEXT_TOO_LONG: "the text is longer than {0} bytes", "текст је дужи од {0} бајтова";
    UTF_16: "the text is in UTF-16; it has to be saved in UTF-8", "текст је у UTF-16; треба га сачувати у UTF-8";
    AMBIGUOUS: "`{0}`: the comma may begin the decimals or separate the thousands; write the decimals behind a point", "`{0}`: зарез може да почиње децимале или да одваја хиљаде; децимале треба писати иза тачке";
    UNKNOWN_COMMAND: "no command `{0}`; `voardusk --help` names them", "нема наредбе `{0}`; `voardusk --help` их набраја";
    NO_COMMAND: "a command is missing\n\n{0}", "недостаје наредба\n\n{0}";
    COMMAND_FIRST: "the command comes first, its options after it: `voardusk {0} ..`", "прво долази наредба, а њене опције иза ње: `voardusk {0} ..`";
    UNKNOWN_OPTION: "`{0}` takes no option `{1}`; see `{0} --help`", "`{0}` не познаје опцију `{1}`; види `{0} --help`";
    OPTION_WITHOUT_VALUE: "`{0}` needs a value; see `{1} --help`", "`{0}` тражи вредност; види `{1} --help`";
    OPTION_WITH_VALUE: "`{0}` takes no value; see `{1} --help`", "`{0}` не узима вредност; види `{1} --help`";
    OPTION_TWICE: "`{0}` is given twice", "`{0}` је задато двапут";
    UNKNOWN_LANGUAGE: "no language `{0}`; there are en, sr and sr-Latn", "нема језика `{0}`; постоје en, sr и sr-Latn";
    WRONG_WORDS: "too few or too many words; `{0}` is called so: {1}", "премало или превише речи; `{0}` се позива овако: {1}";
    NO_STATION: "`{0}` is no station: a whole number of millimetres, 0 or more and of at most 19 digits, or metres as `120.5m` or `0+120.500`, exact in millimetres", "`{0}` није стационажа: цео број милиметара, 0 или више и са највише 19 цифара, или метри као `120.5m` или `0+120.500`, тачни у милиметар";
    SAME_NAME: "{0} and {1} would both become {2}", "{0} и {1} би постали једна датотека, {2}";
    NO_NAME: "{0} has no name for a file in the folder", "{0} нема име за датотеку у фасцикли";
    INPUT_TWICE: "standard input can be read once", "стандардни улаз може да се прочита једном";
}
