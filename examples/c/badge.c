/* usage: badge SCRIPT     reads a badge of 8 bytes from the reader at 50h
 * SCRIPT is a file of what the bus does, pairs of bytes (event, argument), 4096 bytes at most. Prints the badge and ends with 0, or says why
 * there is none and ends with 1. Ends with 2, and prints no badge, where the file can't be read; with 2 also where printing fails. */
#include "badge_io.h"
#include "perlovasta.h"

int main(int argc, char **argv) {
    bus_script bus;
    uint8_t answer, report[PERLOVASTA_REPORT];
    if (argc != 2) {
        fputs("usage: badge SCRIPT\n", stderr);
        return ENDED_NOT_TOLD;
    }
    if (!read_script(&bus, argv[1]))
        return ENDED_NOT_TOLD;

    PERLOVASTA_IF_DONE(badge, answer, perlovasta_read_job(READER, BADGE, bus.bytes, bus.length, report, sizeof report)) {
        print_badge(&badge);
    }
    if (answer != PERLOVASTA_DONE)
        print_why_not(answer, perlovasta_report_refusal(report));
    return ending(answer);
}
