//! Words of `compare`.

crate::phrases! {
    SUMMARY: "rows gone, new and changed between two revisions", "редови који су нестали, нови и промењени између две верзије";
    HELP: "Compares the lists of two revisions of a road by station. `- ROW` is a row that is gone, `+ ROW` a new one; `< ROW` and `> ROW` are a row before and after a change, and the line below says which of its numbers changed and by how much. The last line counts the rows.

Before the rows stand the differences of the heads (contract date and its rule book, class, terrain, step, ramp limit) and of the lengths: where a road becomes longer or shorter, the stations after that place move, and their rows are gone and new.

  --csv   kind (gone, new, changed), station, old and new numbers with commas
          and a head line; the words go to standard error

    voardusk compare examples/crest.alignment examples/long-access-road.alignment
    voardusk compare --csv old.alignment new.alignment > changes.csv",
        "Пореди спискове две верзије пута по стационажи. `- ROW` је ред који је нестао, `+ ROW` нов ред; `< ROW` и `> ROW` су ред пре и после промене, а линија испод каже који су се његови бројеви променили и за колико. Последња линија броји редове.

Пре редова стоје разлике заглавља (датум уговора и његов правилник, врста пута, терен, корак, гранични нагиб рампе витоперења) и дужина: где пут постане дужи или краћи, стационаже иза тог места се померају, па њихови редови нестају и јављају се као нови.

  --csv   врста промене (gone, new, changed), стационажа, стари и нови бројеви
          са зарезима и насловним редом; речи иду на стандардни излаз за грешке

    voardusk compare examples/crest.alignment examples/long-access-road.alignment
    voardusk compare --csv old.alignment new.alignment > changes.csv";
    DATE: "contract date: {0} before, {1} now", "датум уговора: раније {0}, сада {1}";
    NO_DATE: "none", "без датума";
    RULE_BOOK: "rule book: {0} before, {1} now", "правилник: раније {0}, сада {1}";
    CLASS: "class: {0} before, {1} now", "врста пута: раније {0}, сада {1}";
    TERRAIN: "terrain: {0} before, {1} now", "терен: раније {0}, сада {1}";
    STEP: "step: {0} mm before, {1} mm now", "корак: раније {0} mm, сада {1} mm";
    RAMP_LIMIT: "ramp limit: {0} ppm before, {1} ppm now", "гранични нагиб рампе витоперења: раније {0} ppm, сада {1} ppm";
    LONGER: "the road is {0} mm longer", "пут је дужи за {0} mm";
    SHORTER: "the road is {0} mm shorter", "пут је краћи за {0} mm";
    HEIGHT: "axis height {0} mm", "висина осовине {0} mm";
    GRADE: "grade {0} ppm", "подужни нагиб {0} ppm";
    LEFT_CROSSFALL: "left crossfall {0} ppm", "леви попречни нагиб {0} ppm";
    RIGHT_CROSSFALL: "right crossfall {0} ppm", "десни попречни нагиб {0} ppm";
    LEFT_EDGE: "left edge {0} mm", "лева ивица {0} mm";
    RIGHT_EDGE: "right edge {0} mm", "десна ивица {0} mm";
    CURVATURE: "curvature {0} millionths per metre", "закривљеност {0} милионитих делова по метру";
    COUNTS: "rows: {0} gone, {1} new, {2} changed, {3} the same", "редови: нестало {0}, ново {1}, промењено {2}, исто {3}";
    SAME_FILE: "nothing changed: both files are the same, rows: {0}", "ништа се није променило: обе датотеке су исте, редова: {0}";
    SAME_ROWS: "no row changed, rows: {0}", "ниједан ред се није променио, редова: {0}";
    SAME_ROWS_OTHER_FILE: "no row changed, rows: {0}; the files differ in numbers that no row shows", "ниједан ред се није променио, редова: {0}; датотеке се разликују у бројевима које ниједан ред не показује";
}
