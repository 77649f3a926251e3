//! The names of class, terrain, the rule books and the limits.

crate::phrases! {
    CLASS_1: "long-distance road", "даљински пут";
    CLASS_2: "connecting road", "везни пут";
    CLASS_3: "collecting road", "сабирни пут";
    CLASS_4: "access road", "приступни пут";
    TERRAIN_1: "flat terrain", "равничарски терен";
    TERRAIN_2: "hilly terrain", "брдовит терен";
    TERRAIN_3: "mountain terrain", "планински терен";
    BOOK: "rule book", "правилник";
    TODAY: "today's rule book", "важећи правилник";
    OLD_HANDBOOK: "old handbook", "стари приручник";
    CONTRACTED: "{0}: contracted {1}", "{0}: уговор од {1}";
    NOT_DATED: "{0}: no contract date", "{0}: без датума уговора";
    BOOK_NOT_DATED: "{0} (no contract date)", "{0} (без датума уговора)";
    SPEED_BY: "design speed, km/h", "рачунска брзина, km/h";
    SPEED: "design speed", "рачунска брзина";
    LANE: "lane width", "ширина возне траке";
    STRAIGHT_MAX: "straight max", "највећа дужина правца";
    STRAIGHT_MIN: "straight min", "најмања дужина правца";
    RADIUS_MIN: "R min", "минимални радијус";
    RADIUS_BOTH_FALLING: "R' (−2.5 % on both sides)", "R' (−2,5 % на обе стране)";
    CLOTHOID_MIN: "A min", "минимални параметар клотоиде";
    CLOTHOID_LENGTH_MIN: "least clothoid length", "минимална дужина клотоиде";
    ARC_MIN: "arc min", "минимална дужина кружног лука";
    GRADE_MAX: "grade max", "максимални подужни нагиб";
    SAG_RADIUS: "sag R", "минимални радијус конкавног заобљења";
    CREST_RADIUS: "crest R", "минимални радијус конвексног заобљења";
    CROSSFALL: "crossfall", "попречни нагиб";
    EGG_RADIUS_MAX: "greatest radius beside an egg curve", "највећи радијус уз јајасту криву";
    TODAY_TABLE: "Contracted on 2012-01-01 or later, or without a contract date:", "Уговорено 2012-01-01 или касније, или без датума уговора:";
    OLD_TABLE: "Contracted before 2012-01-01, by the old handbook: these limits in place of R min and A min:", "Уговорено пре 2012-01-01, по старом приручнику: ове границе уместо минималног радијуса и минималног параметра клотоиде:";
    NO_LIMIT: "none", "нема";
    FROM_TO: "{0} to {1}", "{0} до {1}";
}
