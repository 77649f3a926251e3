//! The names of the months.

crate::phrases! {
    JANUARY: "January", "јануар";
    FEBRUARY: "February", "фебруар";
    MARCH: "March", "март";
    APRIL: "April", "април";
    MAY: "May", "мај";
    JUNE: "June", "јун";
    JULY: "July", "јул";
    AUGUST: "August", "август";
    SEPTEMBER: "September", "септембар";
    OCTOBER: "October", "октобар";
    NOVEMBER: "November", "новембар";
    DECEMBER: "December", "децембар";
}
