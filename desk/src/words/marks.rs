//! Words of `marks`.

crate::phrases! {
    SUMMARY: "at which of the seven speeds each road would pass", "при којим од седам брзина сваки пут пролази";
    HELP: "Prints for each of the seven speeds, 40 to 100 km/h, that the road passes every rule from 5 on with that speed's limits and lane width, or the first refusal there: its number and place, the rule, the item, and the limit where it is the speed's. The road's class and terrain decide only which of the speeds is its design speed; its contract date stays, and with it the rule book. Each speed is judged alone: a road may fail at one speed and pass at a greater one.

A file that cannot be read (1 to 4 and 22) prints its `R` line, with status 1. Every other answer has status 0, also where the road is refused at its design speed.

  --number   the marks as one number, as C and Rust programs get it: for the speeds at which the
             road passes, the sum of 1 for 40 km/h, 2 for 50, 4 for 60, 8 for 70, 16 for 80,
             32 for 90, 64 for 100
  --csv      file, design speed, speed, 1 or 0, refusal and place with commas and a head line

    voardusk marks examples/long-straight.alignment
    voardusk marks --number examples/crest.alignment
    voardusk marks --csv roads/*.alignment > speeds.csv",
        "За сваку од седам брзина, од 40 до 100 km/h, исписује да пут пролази по свим правилима од 5 надаље, са границама и ширином возне траке те брзине, или прво одбијање при њој: број и место, правило, податак, и граница ако зависи од брзине. Врста пута и терен одређују само која је од тих брзина рачунска брзина пута; датум уговора остаје, а са њим и правилник. Свака брзина се испитује сама за себе: пут може да не прође при једној брзини, а да прође при већој.

За датотеку која не може да се прочита (1 до 4 и 22) исписује се њен ред `R`, са статусом 1. Сваки други одговор има статус 0, и када се датотека при рачунској брзини пута одбија.

  --number   ознаке као један број, какав добијају и програми у C-у и Rust-у: за брзине при
             којима пут пролази збир од 1 за 40 km/h, 2 за 50, 4 за 60, 8 за 70, 16 за 80,
             32 за 90, 64 за 100
  --csv      датотека, рачунска брзина, брзина, 1 или 0, број и место одбијања, са зарезима и
             насловним редом

    voardusk marks examples/long-straight.alignment
    voardusk marks --number examples/crest.alignment
    voardusk marks --csv roads/*.alignment > speeds.csv";
    PASSES: "passes", "пролази";
    FAILS: "does not pass", "не пролази";
    OWN: "{0}, design speed", "{0}, рачунска брзина";
    AND_LIMIT: "{0}; {1} {2}", "{0}; {1} {2}";
    DIFFERENT_AT: "at {0} km/h: {1} and {2}", "при {0} km/h: {1} и {2}";
}
