// setup.dlm with a skip condition: the second alternative of setup is taken
// only where delays are in picoseconds already.

library skip "delay unit and measurement, with a skip condition";

fact granted "the bus is granted";
fact unit_ps "delays are in picoseconds";
fact stored  "a measurement is stored";

step request { sets granted; }
step unit    { needs granted; sets unit_ps; }
step release { needs granted; clears granted; }
step measure { needs granted, unit_ps; sets stored; }

sequence setup "sets the unit, unless it is set" {
    always stands unit_ps; // what the vendor's card meant
    alternative run  { request; unit; release; }
    alternative done { check unit_ps; }
}

sequence full_setup "setup that is never skipped" {
    always sets unit_ps;
    alternative { request; unit; release; }
}

sequence measurement "measures after a setup that can be skipped" {
    always sets stored;
    always stands unit_ps;
    alternative { setup; request; measure; release; }
}

sequence sure_measurement "measures after a setup that cannot" {
    always sets unit_ps, stored;
    never needs unit_ps;
    alternative { full_setup; request; measure; release; }
}
