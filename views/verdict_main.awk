# verdict_main.awk: the verdict of a log alone.

BEGIN {
    read_log()
    verdict()
    closing()
}
