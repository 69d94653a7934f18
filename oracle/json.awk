# Turns a rule file (docs/RULES.md: eight lines a rule) into the JSON that the Rust embeds:
# data/rules.json (part=rules) or data/festivals.json (part=festivals). A name's number serves as its text.
BEGIN {
    FS = "="
    split("kind year month day half kala name holiday", due, " ")
    split("udaya madhyanna aparahna pradosh nishita begins", kala, " ")
}
$1 != due[(NR - 1) % 8 + 1] || $2 !~ /^[0-9]+$/ || NF != 2 { out_of_form(NR) }
{ rule[$1] = $2 }
$1 == "holiday" {
    day = sprintf("\"month\":%d,\"day\":%d", rule["month"], rule["day"])
    name = sprintf("\"en\":\"%d\",\"np\":\"%d\",\"holiday\":%s", rule["name"], rule["name"], rule["holiday"] == 1 ? "true" : "false")
    if (rule["kind"] == 1) add(1, sprintf("{%s,%s}", day, name))
    if (rule["kind"] == 2) add(2, sprintf("{\"ad_month\":%d,\"ad_day\":%d,%s}", rule["month"], rule["day"], name))
    if (rule["kind"] == 3) add(3, sprintf("{\"lunar_month\":%d,\"paksha\":\"%s\",\"tithi\":%d,\"kala\":\"%s\",%s}",
                                          rule["month"], rule["half"] == 0 ? "shukla" : "krishna", rule["day"], kala[rule["kala"] + 1], name))
    if (rule["kind"] == 4) add(4, sprintf("{\"year\":%d,%s,%s}", rule["year"], day, name))
}
function add(kind, entry) { list[kind] = list[kind] (list[kind] == "" ? "" : ",\n") entry }
function out_of_form(line) { print FILENAME ":" line ": out of form" > "/dev/stderr"; bad = 1; exit 1 }
END {
    if (bad) exit 1
    if (NR % 8 != 0) out_of_form(NR + 1)
    if (part == "rules") printf "{\"computed\":[\n%s\n]}\n", list[3]
    else printf "{\"fixed\":[\n%s\n],\n\"ad_fixed\":[\n%s\n],\n\"lunar\":[\n%s\n]}\n", list[1], list[2], list[4]
}
