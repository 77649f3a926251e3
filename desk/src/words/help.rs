//! What `--help` says.

crate::phrases! {
    NAME: "alignments of two-lane rural roads, listed by a proved library", "трасе двотрачних ванградских путева, исписане доказаном библиотеком";
    BEGINNING: "voardusk COMMAND ..: alignments of two-lane rural roads, listed by a proved library", "voardusk НАРЕДБА ..: трасе двотрачних ванградских путева, исписане доказаном библиотеком";
    ENDING: "`voardusk COMMAND --help` says more of each, with an example. FILE may be -, standard input; `-o -` is standard output. `--language en`, `sr` or `sr-Latn` takes the place of the environment's. `voardusk --version` names the kit that proved the library.",
        "`voardusk НАРЕДБА --help` каже више о свакој, са примером. FILE може бити -, стандардни улаз; `-o -` је стандардни излаз. `--language en`, `sr` или `sr-Latn` замењује језик окружења. `voardusk --version` именује алат којим је библиотека доказана.";
    STATUS: "Exit status: 0 an answer, 1 a refusal (of several files: any), 2 wrong use, 3 a read or write that failed.",
        "Излазни статус: 0 одговор, 1 одбијање (од више датотека: било које), 2 погрешна употреба, 3 неуспело читање или писање.";
    LIST: "the list of each road, or its refusal", "списак сваког пута, или његово одбијање";
    LIST_HELP: "Prints what the proved program prints: the row of every listed station (station, height of the axis, grade, left and right crossfall, left and right edge, curvature; mm, ppm, millionths per metre, rounded to the nearest whole number, an exact half away from zero), or `R`, the refusal's number and its place.\n\n  -o FOLDER   writes NAME.list for each NAME.alignment into the folder, whole or not at all\n  --csv       the same numbers with commas and a head line (NAME.csv)\n\n    voardusk list examples/crest.alignment\n    voardusk list --csv -o lists roads/*.alignment",
        "Исписује оно што и доказани програм: ред сваке исписане стационаже (стационажа, висина осовине, подужни нагиб, леви и десни попречни нагиб, лева и десна ивица, закривљеност; mm, ppm, милионити делови по метру, заокружено на најближи цео број, а тачна половина даље од нуле), или `R`, број одбијања и место.\n\n  -o FOLDER   пише NAME.list за сваки NAME.alignment у фасциклу, цело или никако\n  --csv       исти бројеви са зарезима и насловним редом (NAME.csv)\n\n    voardusk list examples/crest.alignment\n    voardusk list --csv -o lists roads/*.alignment";
    ROW: "the row of each station, listed or not", "ред сваке стационаже, исписане или не";
    ROW_HELP: "A station is a whole number of millimetres, or metres as 120.5m or 0+120.500. One beyond the road's end is refused with 21.\n\n    voardusk row examples/crest.alignment 90000 100.5m",
        "Стационажа је цео број милиметара, или метри као 120.5m или 0+120.500. За ону иза краја пута исписује се одбијање 21.\n\n    voardusk row examples/crest.alignment 90000 100.5m";
    NEXT: "the least listed station not below each station, or `none`", "за сваку стационажу најмања исписана која није мања од ње, или `none`";
    NEXT_HELP: "    voardusk next examples/crest.alignment 60000", "    voardusk next examples/crest.alignment 60000";
}
