//! Cases in rows, and what is told for them.

use reference::tell_rows;

/// Rows are written with bars for tabs here.
fn tells(rows: &str, told: &str) {
    let told = told.replace('|', "\t");
    assert_eq!(tell_rows(&rows.replace('|', "\t")), Ok(told));
}

#[test]
fn building_is_not_told() {
    tells("", "");
    tells("\n# blank\n\nblank\nopen|1|0|1\nkeep\nstart|0\nstage\n", "");
    // The stage is what was kept, and each leaves it so.
    tells(
        "blank\nopen|1|0|0\nkeep\nstart|0\nstage\neach|a title\nstart|0|0|0|# one\n\
         start|0\nrun|b\nrest|0\n",
        "a title\n\
         start|0|0|0|0|16777216|working\n|unit|0|active|16777216|0|free\n|counts|0|1|1\n\
         start|0|0|0|0|16777216|working\n|unit|0|active|16777216|0|free\n|counts|0|1|1\n\
         b\n\
         rest|0|0|0|31|0|finished|kept\n",
    );
    // The title of a run stands alone where no case follows.
    tells("run|nothing\nblank\n", "nothing\n");
}

#[test]
fn what_is_no_case() {
    for line in ["bored\t1", "board\t1\t0", "idle", "idle slot\t0", "-1", " "] {
        let rows = format!("blank\n{line}\n");
        assert_eq!(tell_rows(&rows), Err(line.to_string()));
    }
}

#[test]
fn numbers() {
    tells(
        "run|numbers\nopen|99999|70000|70000|1\n1|2|# 3|4\n70000\n\
         debt|18446744073709551617\ndepth|70000\n",
        "numbers\n\
         open|99999|70000|70000|1|11|0|30|blank\n\
         start|2|0|0|30|0|30|kept\n\
         65535|0|0|0|30|0|30|kept\n\
         debt|1|0|0|0|unsound|30|30|30\n\
         depth|70000|30\n",
    );
}

#[test]
fn edits_of_returns() {
    // To the sender's parent, to another lower unit (M-108), to itself, past n.
    tells(
        "blank\nchain|1|0|2\neach|returns\nreturn slot|0|2|1|1\nreturn slot|0|2|0|1\n\
         return slot|0|2|2|1\nreturn slot|0|1|2|1\nreturn slot|0|3|1|1\nreturn slot|0|0|0|1\n\
         return slot|0|2|0|0\n",
        "returns\n\
         return slot|0|2|1|1|sound|38|deep|0|working\n\
         return slot|0|2|0|1|sound|38|deep|0|working\n\
         return slot|0|2|2|1|unsound|30|30|30\n\
         return slot|0|1|2|1|unsound|30|30|30\n\
         return slot|0|3|1|1|unsound|30|30|30\n\
         return slot|0|0|0|1|unsound|30|30|30\n\
         return slot|0|2|0|0|unsound|30|30|30\n",
    );
}

#[test]
fn edits_of_counts_and_rounds() {
    tells(
        "blank\nopen|2|0|1\neach|edits\n\
         counts|1|5|5\ncounts|1|4294967296|4294967295\ncounts|1|5|4\ncounts|2|1|1\ncounts|64|5|5\n\
         round|0\nround|1\nround|9\nround|1|1|0\nround|2|0|1\nmark|0|7\nmark|0|0\n\
         work slot|0|0|1|1\nwork slot|2|0|1|1\nrequest slot|0|0|0|0\n",
        "edits\n\
         counts|1|5|5|0|sound|38|deep|0|finished\n\
         counts|1|4294967296|4294967295|0|sound|38|deep|0|finished\n\
         counts|1|5|4|0|unsound|30|30|30\n\
         counts|2|1|1|0|unsound|30|30|30\n\
         counts|64|5|5|0|sound|38|deep|0|finished\n\
         round|0|0|0|0|sound|38|deep|0|finished\n\
         round|1|0|0|0|sound|38|deep|0|finished\n\
         round|9|0|0|0|sound|38|deep|0|finished\n\
         round|1|1|0|0|unsound|30|30|30\n\
         round|2|0|1|0|unsound|30|30|30\n\
         mark|0|7|0|0|unsound|30|30|30\n\
         mark|0|0|0|0|sound|38|deep|0|finished\n\
         work slot|0|0|1|1|sound|38|deep|0|working\n\
         work slot|2|0|1|1|unsound|30|30|30\n\
         request slot|0|0|0|0|unsound|30|30|30\n",
    );
    // Work becomes another message, and work again: the created count follows.
    tells(
        "blank\nopen|1|0|1\nrun|work\nwork slot|0|0|1|1\nwork slot|0|1|1|3\nreturn slot|0|1|0|2\n\
         empty slot|0\nstart|1\n",
        "work\n\
         work slot|0|0|1|1|sound|38|deep|0|working\n\
         work slot|0|1|1|3|sound|38|deep|0|working\n\
         return slot|0|1|0|2|sound|38|deep|0|working\n\
         empty slot|0|0|0|0|sound|38|deep|0|finished\n\
         start|1|0|0|0|16777216|working\n|unit|1|active|16777216|0|free\n|counts|1|1|1\n",
    );
}

#[test]
fn events() {
    tells(
        "blank\nopen|1|0|1\ncounts|0|2|1\ncounts|1|0|1\nrun|rounds\nvisit|0\nbegin\nbegin\n\
         visit|2\nvisit|1\nvisit|1\nvisit|0\nvisit|0\nvisit|1\nbegin\nstart|1\nbegin\nvisit|1\n\
         debt|0\nbegin\nvisit|9\n",
        "rounds\n\
         visit|0|refused|43|0|finished|kept\n\
         begin|0|0|finished\n|round|one|0|0\n\
         begin|0|0|finished|kept\n\
         visit|2|refused|13|0|finished|kept\n\
         visit|1|no verdict yet|0|0|finished\n|mark|1|1\n|round|one|1|0\n\
         visit|1|refused|43|0|finished|kept\n\
         visit|0|no verdict yet|0|0|finished\n|mark|1|0\n|round|two|2|0\n\
         visit|0|no verdict yet|0|0|finished\n|mark|0|1\n|round|two|2|2\n\
         visit|1|quiet|0|0|finished\n|mark|0|0\n|round|none|0|0\n\
         begin|0|0|finished\n|round|one|0|0\n\
         start|1|0|0|0|16777216|working\n|unit|1|active|16777216|0|free\n|counts|1|1|2\n\
         |round|none|0|0\n\
         begin|0|16777216|working\n|round|one|0|0\n\
         visit|1|refused|42|16777216|working|kept\n\
         debt|0|0|0|0|unsound|30|30|30\n\
         begin|30|0|30|kept\n\
         visit|9|refused|30|0|30|kept\n",
    );
    // Moves, by their word and by their kind, the slot not read (M-108).
    tells(
        "blank\nchain|1|0|2\nrun|moves\ndepth|2\nmove|2|0\nmove|2|0\ndepth|2\nmove|2|2\n\
         move|0|0\nmove|3|0\n8|2|1|7\nstart|2\nrest|2\nrelease|2\nmove|2|0\ndeliver|0\n9|1\n\
         debt|0\nmove|2|1\nmove|3\n",
        "moves\n\
         depth|2|deep|2\n\
         move|2|0|0|0|0|finished\n|parent|2|0\n\
         move|2|0|0|0|0|finished|kept\n\
         depth|2|deep|1\n\
         move|2|2|0|47|0|finished|kept\n\
         move|0|0|0|47|0|finished|kept\n\
         move|3|0|0|13|0|finished|kept\n\
         move|2|1|7|0|0|finished\n|parent|2|1\n\
         start|2|0|0|0|16777216|working\n|unit|2|active|16777216|0|free\n|counts|2|1|1\n\
         rest|2|0|0|0|16777216|working\n|unit|2|waiting|16777216|0|free\n\
         release|2|0|0|0|16777216|working\n|unit|2|idle|0|0|free\n\
         |slot|0|return|2|1|16777216\n\
         move|2|0|0|0|16777216|working\n|parent|2|0\n\
         deliver|0|0|0|0|16777216|working\n|unit|1|waiting|16777216|0|free\n\
         |slot|0|empty|0|0|0\n\
         9|1|0|0|16|16777216|working|kept\n\
         debt|0|0|0|0|unsound|30|30|30\n\
         move|2|1|0|30|0|30|kept\n\
         move|3|0|0|30|0|30|kept\n",
    );
    // What unit 0 created is still under way.
    tells(
        "blank\nopen|1|0|0\nwork slot|0|0|0|7\nbegin\nvisit|0\neach|unsettled\nvisit|0\n",
        "unsettled\nvisit|0|unsettled|0|7|working\n|round|none|0|0\n",
    );
}
