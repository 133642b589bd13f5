/*
 * bb_strerror of bb.h. The words are those of the program (`bb check --json`, `bb report --why`), and of what it says in
 * numbers alone those of the crates machine_text (101 to 105, without the place) and ledger (404, 405). stress/library.py
 * compares them. packaging/c/make compiles this without any header.
 */
const char *bb_strerror(unsigned int code);

const char *bb_strerror(unsigned int code) {
    switch (code) {
    case 101: return "no table's text has this length";
    case 102: return "no `_` between two rows";
    case 103: return "none of `0`, `1` and `-` begins the entry";
    case 104: return "no direction";
    case 105: return "no state";
    case 201: return "it doesn't hold for the table";
    case 202: return "it asks for more than the limit of its kind";
    case 203: return "it asks for more paths, or larger numbers, than its check keeps";
    case 204: return "its run isn't seen to repeat";
    case 301: return "there is no table before the first space";
    case 302: return "there is no kind of record with these fields";
    case 303: return "a field is no number or no side";
    case 304: return "a field is no list of its kind";
    case 305: return "the record is longer than 65000 bytes";
    case 402: return "the table is neither open nor a holdout";
    case 403: return "the table has another number of states than the root";
    case 404: return "the first line is no header of a ledger";
    case 405: return "the ledger is of another root, or of one that does not name its states in order";
    default: return "no refusal of a record or a ledger has this number";
    }
}
