// setup.dlm, where release clears a fact that no line declares. The text is
// refused.

library refused "delay unit and measurement, with a fact too few";

fact granted "the bus is granted";
fact unit_ps "delays are in picoseconds";
fact stored  "a measurement is stored";

step request { sets granted; }
step unit    { needs granted; sets unit_ps; }
step release { needs granted; clears held; }
step measure { needs granted, unit_ps; sets stored; }

sequence setup "sets the unit, unless setup is thought done" {
    alternative run  { request; unit; release; }
    alternative done { }
}

sequence full_setup "setup that is never skipped" {
    alternative { request; unit; release; }
}

sequence measurement "measures after a setup that can be skipped" {
    alternative { setup; request; measure; release; }
}

sequence sure_measurement "measures after a setup that cannot" {
    alternative { full_setup; request; measure; release; }
}
