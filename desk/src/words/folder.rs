//! Words of `folder`.

crate::phrases! {
    SUMMARY: "list and report of every file of a folder, and a table of all roads", "списак и извештај за сваку датотеку фасцикле, и табела свих путева";
    HELP: "For each file NAME.alignment of the folder IN, writes its list (NAME.list) and its page (NAME.html) into the folder OUT, and a table of all roads (roads.txt, roads.html). Each file is written whole or not at all.

Names that begin with a dot, and folders within IN, are passed over; pipes, sockets and devices are named and not opened. A file that cannot be read is named on standard error and in the table, and the others are done. OUT may lie within IN, but must be another folder.

A list and a page of an earlier run stay where the file, the language and the program are the same and nobody changed them. Those of files that are gone from IN stay too, but not in the table.

  --ending ENDING   only files whose names end so

    voardusk folder examples lists --ending .alignment",
        "За сваку датотеку NAME.alignment фасцикле IN пише њен списак (NAME.list) и њену страницу (NAME.html) у фасциклу OUT, и табелу свих путева (roads.txt, roads.html). Свака датотека се пише цела или никако.

Имена која почињу тачком, и фасцикле унутар IN, прескачу се; цеви, прикључнице и уређаји се именују и не отварају. Датотека која не може да се прочита именује се на стандардном излазу за грешке и у табели, а остале се обрађују. OUT може бити унутар IN, али мора бити друга фасцикла.

Списак и страница из ранијег извршавања остају где су датотека, језик и програм исти и нико их није мењао. Остају и они чијих датотека више нема у IN, али не у табели.

  --ending ENDING   само датотеке чије се име тако завршава

    voardusk folder examples lists --ending .alignment";
    SAME_FOLDER: "IN and OUT are one folder, {0}: the lists would be taken for alignments", "IN и OUT су једна фасцикла, {0}: спискови би били схваћени као трасе";
    NO_FILE: "{0} is no file: a pipe, a socket or a device is not opened", "{0} није датотека: цев, прикључница или уређај се не отвара";
    TABLE: "the table of all roads", "табела свих путева";
    TITLE: "Roads of {0}", "Путеви из {0}";
    NAME: "file", "датотека";
    LENGTH: "length, m", "дужина, m";
    ROWS: "rows", "редова";
    REFUSAL: "refusal", "одбијање";
    PLACE: "place", "место";
    WORDS: "why", "зашто";
    LIST: "list", "списак";
    TOTALS: "{0} listed, {1} refused, {2} not read or not written", "исписано {0}, одбијено {1}, није прочитано или записано {2}";
    DONE: "{0}; {1} unchanged since an earlier run", "{0}; непромењено од ранијег извршавања {1}";
    PROGRESS: "{0} of {1} files", "{0} од {1} датотека";
}
