# Turns the lines of `second generate` into equations about the operations of crate paper, one file for each 50 cases.
# Use: awk -v dir=FOLDER -f tools/bridge.awk CASES, with FOLDER/proofs there. Writes FOLDER/proofs/Cases1.antt, ... and FOLDER/proofs/Lib.antt.
function bytes(word) { return word == "-" ? "[]" : "hex \"" word "\"" }
function header(file) {
    print "-- Cases " n + 1 " on: the second implementation's answers as equations about the definitions. Assumes nothing." > file
    print "use mathlib.Core.Path.{◌≡◌, refl}" > file
    print "use mathlib.Core.Bool.{true}" > file
    print "use mathlib.Core.List.{[]}" > file
    print "use Rattle.paper.specs.Answer.{ok, refused}" > file
    print "use Rattle.paper.specs.Operations.{translate_op, run_op, main_op, resolve_op}" > file
    print "use Rattle.paper.proofs.Open.{all}" > file
    print "use Rattle.paper.proofs.Checked.Alike.{hex, alike}" > file
}
{
    if (n % 50 == 0) {
        if (file != "") close(file)
        file = dir "/proofs/Cases" (++files) ".antt"
        print "pub mod Cases" files > (dir "/proofs/Lib.antt")
        header(file)
    }
    n++
    if ($1 == "run") { call = "run_op (" bytes($2) ") (" bytes($3) ") 32792 65536 65536"; at = 4 }
    else {
        at = 3
        if ($1 == "translate") call = "translate_op (" bytes($2) ") 53272 65536"
        else if ($1 == "main") call = "main_op (" bytes($2) ") 32792"
        else if ($1 == "resolve") call = "resolve_op (" bytes($2) ") 32792 65536 65536 65536"
        else { print "bridge: line " NR " is no case: " $1 > "/dev/stderr"; exit 1 }
    }
    if ($at != "=") { print "bridge: line " NR " has no answer" > "/dev/stderr"; exit 1 }
    answer = $(at + 1) == "done" ? "ok (" bytes($(at + 2)) ")" : "refused " $(at + 2) " " $(at + 3)
    printf "\n%s-%d : alike (%s) (%s) ≡ true\nunfolding all\n%s-%d = refl\n", $1, n, call, answer, $1, n > file
}
END { if (n == 0) { print "bridge: no cases" > "/dev/stderr"; exit 1 } }
