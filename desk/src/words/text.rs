//! Words of the text format: the fields, their ranges, the table of lines.

crate::phrases! {
    LAYOUT: "layout", "распоред података";
    DATE: "contract date", "датум уговора";
    CLASS: "class", "врста пута";
    TERRAIN: "terrain", "терен";
    STEP: "step", "корак стационаже";
    RAMP: "ramp limit", "гранични нагиб рампе витоперења";
    ELEMENT_COUNT: "number of elements", "број елемената";
    KIND: "kind", "врста елемента";
    LENGTH: "length", "дужина";
    RADIUS: "radius", "радијус";
    START: "start height", "почетна висина";
    TANGENT_COUNT: "number of tangents", "број тангената";
    GRADE: "grade", "подужни нагиб";
    HALF_LENGTH: "half length of the vertical curve", "полудужина вертикалне кривине";
    POINT_COUNT: "number of crossfall points", "број тачака попречног нагиба";
    STATION: "station", "стационажа";
    LEFT: "left crossfall", "леви попречни нагиб";
    RIGHT: "right crossfall", "десни попречни нагиб";
    NUMBER: "number", "број";
    SIGNED: "signed value", "вредност са предзнаком";
    NAMED: "{0}: {1}", "{0}: {1}";
    FROM_TO: "{0} to {1}", "од {0} до {1}";
    DAY_FROM_TO: "a day from {0} to {1}", "дан од {0} до {1}";
    IN_SIZE: "{0} in size", "{0} по апсолутној вредности";
    OUTSIDE: "{0} is outside {1}", "{0} је ван опсега {1}";
    IS_NOT: "{0} is not {1}", "{0} није {1}";
    FORMAT: "The text has a line for each item, in the file's order; `#` begins a comment. Lengths, stations and heights are in mm, grades, crossfalls and the ramp limit in ppm (1 % is 10,000 ppm). With the ranges outside which a file is refused:",
        "Текст има по један ред за сваки податак, редоследом датотеке; `#` започиње коментар. Дужине, стационаже и висине су у mm, подужни и попречни нагиби и гранични нагиб рампе витоперења у ppm (1 % је 10.000 ppm). Са опсезима ван којих се датотека одбија:";
    DATES: "`date` begins the text of a file that has a contract date, and is left out where there is none; `date 20111231` is the same. A road contracted before 2012-01-01 is held to the old handbook.",
        "Ред `date` је први у тексту датотеке која има датум уговора, а изоставља се где датума нема; `date 20111231` је исто. За пут уговорен пре 2012-01-01 важи стари приручник.";
    SIGNS: "A radius is positive for a right turn, a grade uphill, a crossfall where the edge lies above the axis. The last tangent has no `curve`; `curve 0` is a vertex without a vertical curve.",
        "Радијус је позитиван у десној кривини, подужни нагиб на успону, попречни нагиб где је ивица изнад осовине. Последња тангента нема `curve`; `curve 0` је прелом без вертикалне кривине.";
    UNITS: "A value may be given with its unit, m or %, where it is exact in mm or ppm: `arc 40 m -175 m`, `tangent 100 m 2.5 % curve 20 m`, `straight 120.5m`. The decimals follow a point or a comma; nothing separates the thousands.",
        "Вредност може имати јединицу, m или %, ако је тачна у mm или ppm: `arc 40 m -175 m`, `tangent 100 m 2,5 % curve 20 m`, `straight 120,5m`. Децимале су иза тачке или зареза; хиљаде се не одвајају.";
    ESCAPES: "Lines for files that no desk would send; where one of them occurs, the lines are written as they stand and need not make a whole alignment:",
        "Редови за датотеке какве ниједан биро не би послао; где је неки од њих, редови се пишу како стоје и не морају чинити целу трасу:";
    COUNT_LINE: "this number of elements in place of the computed one", "овај број елемената уместо израчунатог";
    SAME_LINE: "the same of this list", "исто за ову листу";
    NUMBER_LINE: "one number as it stands", "један број како стоји";
    SIGNED_LINE: "one signed value", "једна вредност са предзнаком";
    BYTES_LINE: "these bytes, so many times; `bytes` alone: none", "ови бајтови, толико пута; само `bytes`: ниједан";
}
