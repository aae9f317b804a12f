// Ten sequences, eight of them without a run. README.md says of each why.

library endless "sequences with and without a run";

fact mark "a run got that far";

step set { sets mark; }

sequence ring "waits for gap, or for back, which waits for it" {
    alternative { gap; set; }
    alternative { set; back; }
}

sequence back "the way back to ring" {
    alternative { ring; }
}

sequence stops "calls itself, or ends: it has a run" {
    alternative again { stops; }
    alternative end   { }
}

sequence gap "there is nothing to choose" {
}

sequence waits "waits for itself, after one that has a run" {
    alternative { stops; waits; }
}

sequence waits_too "the same; what is wrong with checked is another matter" {
    alternative { checked; waits_too; }
}

sequence checked "the check gives it a run" {
    alternative { loop; }
    alternative { check mark; }
}

sequence loop "waits for itself" {
    alternative { loop; }
}

sequence far "waits for either, and names back behind it" {
    alternative { either; back; }
}

sequence either "waits for gap, or for loop" {
    alternative { gap; }
    alternative { loop; set; }
}
