// 256 facts, and those at the borders of a column's words: bit 63 of word 0 is
// fact 63, and bit 0 of word 1 fact 64.

library borders "facts at the borders of a column's words";

fact word0_bit0 "the first fact";
fact word0_bit1; fact word0_bit2; fact word0_bit3;
fact word0_bit4; fact word0_bit5; fact word0_bit6; fact word0_bit7;
fact word0_bit8; fact word0_bit9; fact word0_bit10; fact word0_bit11;
fact word0_bit12; fact word0_bit13; fact word0_bit14; fact word0_bit15;
fact word0_bit16; fact word0_bit17; fact word0_bit18; fact word0_bit19;
fact word0_bit20; fact word0_bit21; fact word0_bit22; fact word0_bit23;
fact word0_bit24; fact word0_bit25; fact word0_bit26; fact word0_bit27;
fact word0_bit28; fact word0_bit29; fact word0_bit30; fact word0_bit31;
fact word0_bit32; fact word0_bit33; fact word0_bit34; fact word0_bit35;
fact word0_bit36; fact word0_bit37; fact word0_bit38; fact word0_bit39;
fact word0_bit40; fact word0_bit41; fact word0_bit42; fact word0_bit43;
fact word0_bit44; fact word0_bit45; fact word0_bit46; fact word0_bit47;
fact word0_bit48; fact word0_bit49; fact word0_bit50; fact word0_bit51;
fact word0_bit52; fact word0_bit53; fact word0_bit54; fact word0_bit55;
fact word0_bit56; fact word0_bit57; fact word0_bit58; fact word0_bit59;
fact word0_bit60; fact word0_bit61; fact word0_bit62;
fact word0_bit63 "the last fact of a column's first word";
fact word1_bit0 "the first fact of its second word";
fact word1_bit1; fact word1_bit2; fact word1_bit3;
fact word1_bit4; fact word1_bit5; fact word1_bit6; fact word1_bit7;
fact word1_bit8; fact word1_bit9; fact word1_bit10; fact word1_bit11;
fact word1_bit12; fact word1_bit13; fact word1_bit14; fact word1_bit15;
fact word1_bit16; fact word1_bit17; fact word1_bit18; fact word1_bit19;
fact word1_bit20; fact word1_bit21; fact word1_bit22; fact word1_bit23;
fact word1_bit24; fact word1_bit25; fact word1_bit26; fact word1_bit27;
fact word1_bit28; fact word1_bit29; fact word1_bit30; fact word1_bit31;
fact word1_bit32; fact word1_bit33; fact word1_bit34; fact word1_bit35;
fact word1_bit36; fact word1_bit37; fact word1_bit38; fact word1_bit39;
fact word1_bit40; fact word1_bit41; fact word1_bit42; fact word1_bit43;
fact word1_bit44; fact word1_bit45; fact word1_bit46; fact word1_bit47;
fact word1_bit48; fact word1_bit49; fact word1_bit50; fact word1_bit51;
fact word1_bit52; fact word1_bit53; fact word1_bit54; fact word1_bit55;
fact word1_bit56; fact word1_bit57; fact word1_bit58; fact word1_bit59;
fact word1_bit60; fact word1_bit61; fact word1_bit62; fact word1_bit63;
fact word2_bit0; fact word2_bit1; fact word2_bit2; fact word2_bit3;
fact word2_bit4; fact word2_bit5; fact word2_bit6; fact word2_bit7;
fact word2_bit8; fact word2_bit9; fact word2_bit10; fact word2_bit11;
fact word2_bit12; fact word2_bit13; fact word2_bit14; fact word2_bit15;
fact word2_bit16; fact word2_bit17; fact word2_bit18; fact word2_bit19;
fact word2_bit20; fact word2_bit21; fact word2_bit22; fact word2_bit23;
fact word2_bit24; fact word2_bit25; fact word2_bit26; fact word2_bit27;
fact word2_bit28; fact word2_bit29; fact word2_bit30; fact word2_bit31;
fact word2_bit32; fact word2_bit33; fact word2_bit34; fact word2_bit35;
fact word2_bit36; fact word2_bit37; fact word2_bit38; fact word2_bit39;
fact word2_bit40; fact word2_bit41; fact word2_bit42; fact word2_bit43;
fact word2_bit44; fact word2_bit45; fact word2_bit46; fact word2_bit47;
fact word2_bit48; fact word2_bit49; fact word2_bit50; fact word2_bit51;
fact word2_bit52; fact word2_bit53; fact word2_bit54; fact word2_bit55;
fact word2_bit56; fact word2_bit57; fact word2_bit58; fact word2_bit59;
fact word2_bit60; fact word2_bit61; fact word2_bit62; fact word2_bit63;
fact word3_bit0; fact word3_bit1; fact word3_bit2; fact word3_bit3;
fact word3_bit4; fact word3_bit5; fact word3_bit6; fact word3_bit7;
fact word3_bit8; fact word3_bit9; fact word3_bit10; fact word3_bit11;
fact word3_bit12; fact word3_bit13; fact word3_bit14; fact word3_bit15;
fact word3_bit16; fact word3_bit17; fact word3_bit18; fact word3_bit19;
fact word3_bit20; fact word3_bit21; fact word3_bit22; fact word3_bit23;
fact word3_bit24; fact word3_bit25; fact word3_bit26; fact word3_bit27;
fact word3_bit28; fact word3_bit29; fact word3_bit30; fact word3_bit31;
fact word3_bit32; fact word3_bit33; fact word3_bit34; fact word3_bit35;
fact word3_bit36; fact word3_bit37; fact word3_bit38; fact word3_bit39;
fact word3_bit40; fact word3_bit41; fact word3_bit42; fact word3_bit43;
fact word3_bit44; fact word3_bit45; fact word3_bit46; fact word3_bit47;
fact word3_bit48; fact word3_bit49; fact word3_bit50; fact word3_bit51;
fact word3_bit52; fact word3_bit53; fact word3_bit54; fact word3_bit55;
fact word3_bit56; fact word3_bit57; fact word3_bit58; fact word3_bit59;
fact word3_bit60; fact word3_bit61; fact word3_bit62;
fact word3_bit63 "the last fact";

step mark { sets word0_bit0, word0_bit63, word1_bit0, word3_bit63; }
step drop "needs those of later words, clears the last of the first" {
    needs word1_bit0, word3_bit63;
    clears word0_bit63;
}

sequence marked "sets the four" {
    always sets word0_bit0, word0_bit63, word1_bit0, word3_bit63;
    alternative { mark; }
}

sequence marked_and_dropped "and clears one of them" {
    always clears word0_bit63;
    always stands word0_bit0, word1_bit0, word3_bit63;
    alternative { mark; drop; }
}

sequence dropped "clears it alone, or does nothing" {
    never sets word0_bit63;
    alternative { drop; }
    alternative { }
}

sequence checked "the last fact stands, by a check or by a set" {
    always stands word3_bit63;
    alternative by_check { check word3_bit63; }
    alternative by_set   { marked; }
}

sequence forever "has no run" {
    alternative { forever; }
}
