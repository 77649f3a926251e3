//! The rules in a short clause each: what is wrong with a file that a refusal turns away.

crate::phrases! {
    RULE_1: "the file is longer than 8,192 bytes", "датотека је дужа од 8.192 бајта";
    RULE_2: "a number breaks off, is not in shortest form or is too great", "број је прекинут, није у најкраћем облику или је превелик";
    RULE_3: "a number is outside its range", "број је ван свог опсега";
    RULE_4: "bytes follow the last number", "иза последњег броја има још бајтова";
    RULE_5: "the plan is longer than 100 km", "осовина је дужа од 100 km";
    RULE_6: "the tangents do not add up to the length of the plan", "збир дужина тангената нивелете није једнак дужини осовине";
    RULE_7: "the elements of the plan are out of order", "редослед елемената ситуационог плана није исправан";
    RULE_8: "a straight is too long", "правац је предугачак";
    RULE_9: "a straight between bends of the same turn is too short", "међуправац између истосмерних кривина је прекратак";
    RULE_10: "the radius of an arc is too small", "радијус кружног лука је премали";
    RULE_11: "an arc is too short", "кружни лук је прекратак";
    RULE_12: "a clothoid is too short", "клотоида је прекратка";
    RULE_13: "a grade is too steep", "подужни нагиб је превелик";
    RULE_14: "a tangent is too short for the vertical curves at its ends", "тангента је прекратка за вертикалне кривине на својим крајевима";
    RULE_15: "the radius of a vertical curve is too small", "радијус вертикалне кривине је премали";
    RULE_16: "a crossfall point is not where it has to be", "тачка попречног нагиба није тамо где мора бити";
    RULE_17: "a crossfall is outside 2.5 % to 7 %", "попречни нагиб је ван опсега од 2,5 % до 7 %";
    RULE_18: "the crossfall changes faster than the ramp limit allows", "попречни нагиб се мења брже него што дозвољава гранични нагиб рампе витоперења";
    RULE_19: "the crossfall on an arc is not allowed there", "попречни нагиб на кружном луку није дозвољен";
    RULE_22: "the contract date is no day from 1950 to 2099", "датум уговора није исправан дан од 1950. до 2099. године";
    RULE_23: "an egg curve or a pair of clothoids does not fit its arcs", "јајаста крива или пар клотоида не одговара својим луковима";
}
