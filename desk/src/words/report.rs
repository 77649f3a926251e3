//! Words of `report`.

use super::Phrase;

crate::phrases! {
    SUMMARY: "one page with the road's drawings and its list", "једна страница са цртежима пута и списком";
    HELP: "Writes one page in HTML with all that it needs inside: the road's rule book and limits, with its contract date where it has one, where the blade is furthest from the design, the profile with its rows and joints, curvature, crossfall, the blade's distance against its bound, the speeds at which the road would pass, and the list with the reason for each joint. For a refused file: every broken rule, the speeds at which it would pass, and the items marked in the drawing.\n\n  -o PAGE     writes the page into a file, whole or not at all\n  --picture   one SVG picture instead: the profile, the blade between two rows, and the same with a row left out\n\n    voardusk report examples/crest.alignment -o crest.html",
        "Пише једну страницу у HTML-у са свиме што јој треба: правилник и граничне вредности пута, са датумом уговора ако постоји, место где је нож грејдера најдаље од пројекта, подужни профил са редовима и карактеристичним тачкама, закривљеност, попречни нагиб, одступање ножа и његову границу, брзине при којима пут пролази, и списак са разлогом за сваку карактеристичну тачку. За одбијену датотеку: свако прекршено правило, брзине при којима пролази, и означене ставке на цртежу.\n\n  -o PAGE     пише страницу у датотеку, целу или никако\n  --picture   уместо тога једна SVG слика: подужни профил, нож између два реда, и исто без једног реда\n\n    voardusk report examples/crest.alignment -o crest.html";
    TITLE: "Report: {0}", "Извештај: {0}";

    CLASS: "class", "врста пута";
    TERRAIN: "terrain", "терен";
    LENGTH: "length", "дужина";
    STEP: "step", "корак";
    RAMP_LIMIT: "ramp limit", "гранични нагиб рампе витоперења";
    ELEMENTS: "plan elements", "елемената ситуационог плана";
    TANGENTS: "tangents", "тангената нивелете";
    POINTS: "crossfall points", "тачака попречног нагиба";
    ROW_COUNT: "rows", "редова";
    LOWEST: "lowest row (axis)", "најнижи ред (осовина)";
    HIGHEST: "highest row (axis)", "највиши ред (осовина)";
    MADE_BY: "made by", "израдио";

    FURTHEST_LEFT_ABOVE: "The blade is furthest from the design at station {0}, on the left edge: {1} mm above it, between the rows at {2} and {3}; the bound there is {4} mm.",
        "Нож грејдера је најдаље од пројекта на стационажи {0}, на левој ивици: {1} mm изнад њега, између редова на {2} и {3}; граница је на том месту {4} mm.";
    FURTHEST_LEFT_BELOW: "The blade is furthest from the design at station {0}, on the left edge: {1} mm below it, between the rows at {2} and {3}; the bound there is {4} mm.",
        "Нож грејдера је најдаље од пројекта на стационажи {0}, на левој ивици: {1} mm испод њега, између редова на {2} и {3}; граница је на том месту {4} mm.";
    FURTHEST_RIGHT_ABOVE: "The blade is furthest from the design at station {0}, on the right edge: {1} mm above it, between the rows at {2} and {3}; the bound there is {4} mm.",
        "Нож грејдера је најдаље од пројекта на стационажи {0}, на десној ивици: {1} mm изнад њега, између редова на {2} и {3}; граница је на том месту {4} mm.";
    FURTHEST_RIGHT_BELOW: "The blade is furthest from the design at station {0}, on the right edge: {1} mm below it, between the rows at {2} and {3}; the bound there is {4} mm.",
        "Нож грејдера је најдаље од пројекта на стационажи {0}, на десној ивици: {1} mm испод њега, између редова на {2} и {3}; граница је на том месту {4} mm.";
    GREATEST_STEP: "A step of at most {1} keeps the vertical curves' share of the distance under {0} mm; the road's step is {2}.",
        "Корак од највише {1} држи удео вертикалних кривина у одступању испод {0} mm; корак пута је {2}.";
    EVERY_STEP: "Every step keeps the vertical curves' share of the distance under {0} mm; the road's step is {1}.",
        "Сваки корак држи удео вертикалних кривина у одступању испод {0} mm; корак пута је {1}.";
    NO_STEP: "No step keeps the vertical curves' share of the distance under {0} mm; the road's step is {1}.",
        "Ниједан корак не држи удео вертикалних кривина у одступању испод {0} mm; корак пута је {1}.";

    DRAWINGS_HEADING: "Drawings", "Цртежи";
    DRAWINGS_EXPLAINED: "All drawings of a sheet have one station axis. Upright lines are joints: where an element, a vertical curve or a crossfall begins or ends. Their stations, heights and reasons stand below, each reason with the number of its item, counted from 0. A label that has no room is left out; the list has every row.",
        "Сви цртежи једног листа имају исту осу стационаже. Усправне линије су карактеристичне тачке: где почиње или се завршава елемент, вертикална кривина или попречни нагиб. Њихове стационаже, висине и разлози стоје испод, сваки разлог са бројем своје ставке, бројано од 0. Натпис за који нема места је изостављен; списак има сваки ред.";
    ROWS_DRAWN: "Small dots on the axis are rows of the list, large dots are joints.",
        "Мале тачке на осовини су редови списка, велике су карактеристичне тачке.";
    ROWS_NOT_DRAWN: "The rows of the list are too close to each other to be drawn; large dots on the axis are joints. The greatest distance of the blade is drawn for several rows together.",
        "Редови списка су преблизу један другом да би били нацртани; велике тачке на осовини су карактеристичне тачке. Највеће одступање ножа нацртано је за више редова заједно.";
    SHEET_FROM_TO: "From {0} to {1}", "Од {0} до {1}";
    SHEET_OVERVIEW: "The whole road, {0} to {1}", "Цео пут, {0} до {1}";
    PROFILE_HEAD: "longitudinal profile, m", "подужни профил, m";
    AXIS: "axis", "осовина";
    LEFT_EDGE: "left edge", "лева ивица";
    RIGHT_EDGE: "right edge", "десна ивица";
    HEIGHTS_TIMES: "heights {0}\u{a0}:\u{a0}{1}", "висине {0}\u{a0}:\u{a0}{1}";
    STATION_UNIT: "station, km+m", "стационажа, km+m";
    GRADE_HEAD: "grade, length", "подужни нагиб";
    CURVES_HEAD: "vertical curves", "вертикалне кривине";
    CREST: "crest R {0}", "конвексно R {0}";
    SAG: "sag R {0}", "конкавно R {0}";
    HALF_LENGTH: "half length {0}", "полудужина {0}";
    PLAN_HEAD: "curvature, not to scale", "закривљеност, без размере";
    PLAN_SIGNS: "right turn above, left turn below", "десна кривина горе, лева доле";
    STRAIGHT: "straight {0}", "правац {0}";
    CLOTHOID: "clothoid {0}", "клотоида {0}";
    EGG_LENGTH: "egg curve {0}", "јајаста крива {0}";
    EGG: "egg curve", "јајаста крива";
    EGG_SHORT: "egg", "јајаста";
    REVERSING_LENGTH: "reversing bend {0}", "прекретна S-крива {0}";
    REVERSING: "reversing bend", "прекретна S-крива";
    REVERSING_SHORT: "S bend", "S-крива";
    ARC_RIGHT: "R {0} right", "R {0} десно";
    ARC_LEFT: "R {0} left", "R {0} лево";
    CROSSFALL_HEAD: "crossfall, %", "попречни нагиб, %";
    LEFT: "left", "лево";
    RIGHT: "right", "десно";
    EDGE_SCALE: "at the right: edge above axis, mm", "десно: ивица изнад осовине, mm";
    DISTANCE_HEAD: "greatest distance blade to design, mm", "највеће одступање ножа, mm";
    BOUND: "bound", "граница";
    DISTANCES_TIMES: "distances {0}\u{a0}:\u{a0}{1}", "одступања {0}\u{a0}:\u{a0}{1}";
    STATION: "station, km+m", "стационажа, km+m";
    AXIS_HEIGHT: "axis height, m", "висина осовине, m";
    LEFT_EDGE_HEIGHT: "left edge, m", "лева ивица, m";
    RIGHT_EDGE_HEIGHT: "right edge, m", "десна ивица, m";
    START_OR_END: "start or end", "почетак или крај";
    STEP_MULTIPLE: "multiple of the step", "умножак корака";
    ELEMENT_END: "element ends", "крај елемента";
    CURVE_BEGINNING: "curve begins", "почетак заобљења";
    CURVE_END: "curve ends", "крај заобљења";
    VERTEX: "vertex, no curve", "прелом без заобљења";
    POINT: "crossfall point", "тачка попречног нагиба";

    PAIR_HEADING: "Where the blade is furthest from the design", "Где је нож најдаље од пројекта";
    PAIR_LEFT: "Left edge from {0} to {1}: the blade against the design", "Лева ивица од {0} до {1}: нож и пројекат";
    PAIR_RIGHT: "Right edge from {0} to {1}: the blade against the design", "Десна ивица од {0} до {1}: нож и пројекат";
    PAIR_LEFT_OUT: "The same without the row at {0}: the blade would run from {1} to {2}", "Исто без реда {0}: нож би ишао од {1} до {2}";
    ABOVE_STRAIGHT: "mm above the straight from row to row", "mm изнад праве од реда до реда";
    DESIGN: "design", "пројекат";
    BLADE: "blade", "нож";
    BLADE_SKIPPING: "blade without the row", "нож без тог реда";
    APART: "{0} mm apart", "одступање {0} mm";
    APART_AND_BOUND: "{0} mm apart; proved: at most 1 + {1} mm", "одступање {0} mm; доказано: највише 1 + {1} mm";
    ROW_STATION: "station", "стационажа";
    ROW_EDGE: "edge", "ивица";
    ROW_REASONS: "listed as", "разлог";

    SPEEDS_HEADING: "Speeds at which the road would pass", "Брзине при којима пут пролази";
    SPEEDS_EXPLAINED: "The road is judged with the limits and the lane width of each speed in place of those of its design speed; its rule book stays. Where it does not pass, the first refusal stands.",
        "Пут се испитује са границама и ширином возне траке сваке брзине уместо оних за његову рачунску брзину; правилник остаје исти. Где не пролази, стоји прво одбијање.";

    LIST_HEADING: "The list", "Списак";
    LIST_NUMBERS: "The numbers are those of the list, in mm, ppm (10,000 ppm are 1 %) and millionths per metre, rounded to the nearest whole number, an exact half away from zero. A row without a reason is listed as a multiple of the step alone.",
        "Бројеви су они из списка, у mm, ppm (10.000 ppm је 1 %) и милионитим деловима по метру, заокружени на најближи цео број, а тачна половина даље од нуле. Ред без разлога исписан је само као умножак корака.";
    COLUMN_STATION: "station, mm", "стационажа, mm";
    COLUMN_HEIGHT: "axis, mm", "осовина, mm";
    COLUMN_GRADE: "grade, ppm", "подужни нагиб, ppm";
    COLUMN_LEFT: "left crossfall, ppm", "попречни нагиб лево, ppm";
    COLUMN_RIGHT: "right crossfall, ppm", "попречни нагиб десно, ppm";
    COLUMN_LEFT_EDGE: "left edge, mm", "лева ивица, mm";
    COLUMN_RIGHT_EDGE: "right edge, mm", "десна ивица, mm";
    COLUMN_CURVATURE: "curvature, 10⁻⁶/m", "закривљеност, 10⁻⁶/m";
    COLUMN_REASONS: "listed as", "разлог";
    START: "start", "почетак";
    END: "end", "крај";
    ELEMENT_ENDS: "element {0} ends", "крај елемента {0}";
    EGG_ENDS: "element {0} ends (egg curve)", "крај елемента {0} (јајаста крива)";
    REVERSES: "element {0} ends (reversing bend: curvature 0)", "крај елемента {0} (прекретна S-крива: закривљеност 0)";
    REVERSING_ENDS: "element {0} ends (reversing bend)", "крај елемента {0} (прекретна S-крива)";
    CURVE_BEGINS: "curve {0} begins", "почетак заобљења {0}";
    CURVE_ENDS: "curve {0} ends", "крај заобљења {0}";
    VERTEX_WITHOUT_CURVE: "vertex {0}", "прелом {0}";
    CROSSFALL_POINT: "crossfall point {0}", "тачка попречног нагиба {0}";

    REFUSED: "Refused: {0} ({1} {2})", "Одбијено: {0} ({1} {2})";
    REFUSED_WITHOUT_PLACE: "Refused: {0}", "Одбијено: {0}";
    FINDINGS_HEADING: "Broken rules", "Прекршена правила";
    CHANGES: "Changes of the text that mend it:", "Измене текста које то поправљају:";
    BYTES_HEADING: "The bytes around the place", "Бајтови око места";
    FILE_END: "end of the file", "крај датотеке";
    MARKS_EXPLAINED: "Bars with a number mark the items that the findings of that number name. The items are drawn as the file gives them.",
        "Траке са бројем означавају ставке које именују налази са тим бројем. Ставке су нацртане онако како их датотека даје.";
}

/// The list's columns.
pub const COLUMNS: [Phrase; 9] = [
    COLUMN_STATION,
    COLUMN_HEIGHT,
    COLUMN_GRADE,
    COLUMN_LEFT,
    COLUMN_RIGHT,
    COLUMN_LEFT_EDGE,
    COLUMN_RIGHT_EDGE,
    COLUMN_CURVATURE,
    COLUMN_REASONS,
];
