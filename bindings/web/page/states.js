// The states of a blob in a scan, by their numbers in the worker's lists and by their names in the style; and those of the page, which
// tests wait for.
export const READ = 0, HOPPED = 1, HIT = 2;
// Of a blob that is hopped over the header is read, which has a place of its own in sums.
export const HEADER = 3;
export const NAMES = ["read", "hopped", "hit", "header"];
export const NONE = "none", WORKING = "working", DONE = "done", WRONG = "wrong";
