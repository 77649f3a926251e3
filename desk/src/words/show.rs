//! Words of `show`.

crate::phrases! {
    SUMMARY: "a file as text, with every number named", "датотека као текст, са сваким бројем именованим";
    HELP: "What `voardusk make` makes of the text is the file, byte for byte, also of a damaged one. Comments give the rule book, the speed, the lane width and every limit, the beginning and the end of each element and tangent, name egg curves and reversing bends, and mark the item that a refusal names. Of a file of more than 65,536 bytes the first 65,536 are shown, with status 1; a refused file is shown with status 0.\n\n    voardusk show examples/mountain-access-road.alignment\n    voardusk show road.alignment > road.txt\n\n{0}",
        "Оно што `voardusk make` направи од текста је иста датотека, бајт по бајт, и када је оштећена. Коментари наводе правилник, брзину, ширину возне траке и све границе, почетак и крај сваког елемента и сваке тангенте, именују јајасте и прекретне S-криве, и обележавају место на које се одбијање односи. Од датотеке дуже од 65.536 бајтова приказује се првих 65.536, са статусом 1; одбијена датотека се приказује са статусом 0.\n\n    voardusk show examples/mountain-access-road.alignment\n    voardusk show road.alignment > road.txt\n\n{0}";
    BYTES: "bytes: {0}", "бајтова: {0}";
    LONGER: "the file is longer than {0} bytes; the text has the first {0} alone", "датотека је дужа од {0} бајтова; текст садржи само првих {0}";
    GOES_ON: "the file goes on here", "датотека се овде наставља";
    REFUSAL: "refusal {0} at {1} {2}: {3}", "одбијање {0}, {1} {2}: {3}";
    REFUSAL_NO_PLACE: "refusal {0}: {1}", "одбијање {0}: {1}";
    HERE: "refusal {0} here: {1}", "овде је одбијање {0}: {1}";
    ELEMENTS: "elements: {0}", "елемената: {0}";
    TANGENTS: "tangents: {0}", "тангената: {0}";
    POINTS: "crossfall points: {0}", "тачака попречног нагиба: {0}";
    WHOLE_ITEMS: "whole: {0}", "целих: {0}";
    ELEMENT: "element {0}, from {1} to {2}", "елемент {0}, од {1} до {2}";
    RIGHT_TURN: "{0}, right turn", "{0}, десна кривина";
    LEFT_TURN: "{0}, left turn", "{0}, лева кривина";
    EGG: "{0}, egg curve, least length {1}", "{0}, јајаста крива, најмања дужина {1}";
    FIRST_OF_REVERSING: "{0}, first clothoid of a reversing bend, least length {1}", "{0}, прва клотоида прекретне S-криве, најмања дужина {1}";
    SECOND_OF_REVERSING: "{0}, second clothoid of a reversing bend, least length {1}", "{0}, друга клотоида прекретне S-криве, најмања дужина {1}";
    TANGENT: "tangent {0}, from {1} to {2}", "тангента {0}, од {1} до {2}";
    TANGENT_TO_CURVE: "tangent {0}, from {1} to vertex {0} at {2}; curve from {3} to {4}", "тангента {0}, од {1} до прелома {0} на {2}; кривина од {3} до {4}";
    TANGENT_TO_VERTEX: "tangent {0}, from {1} to vertex {0} at {2}; no curve", "тангента {0}, од {1} до прелома {0} на {2}; без кривине";
    POINT: "point {0}", "тачка {0}";
    AT_BYTE: "byte {0}, {1}: {2}", "бајт {0}, {1}: {2}";
    MISSING: "the file ends where this number is due", "датотека се завршава где треба да је овај број";
    BREAKS_OFF: "the number breaks off at the end of the file", "број се прекида на крају датотеке";
    NOT_SHORTEST: "the number is not in shortest form", "број није у најкраћем облику";
    TOO_GREAT: "the number exceeds 4,294,967,295", "број прелази 4.294.967.295";
    UNKNOWN_KIND: "no element has kind {0}, so what follows cannot be told", "ниједан елемент нема врсту {0}, па се не зна шта следи";
    FOLLOWING: "byte {0}: here the alignment has ended", "бајт {0}: овде је траса завршена";
    READ: "read", "прочитано";
    UNLISTED: "{0} is no listed station", "{0} није исписана стационажа";
}
