/* Holds the library for hosts against answers that are known. The arguments are the folders of traces and of cases. */
#include "test.h"

#include <stdlib.h>

int main(int argc, char **argv)
{
    if (argc != 4) {
        fprintf(stderr, "usage: test VECTORS DOC_CASES FRAME_CASES\n");
        return EXIT_FAILURE;
    }
    unsigned long of_traces = test_vectors(argv[1]);
    unsigned long of_cases = test_doc_cases(argv[2]);
    unsigned long of_frames = test_frame_cases(argv[3]);
    test_layout();
    test_lives();
    test_areas();
    test_guarded();
    test_edges();
    test_records();
    test_frames();
    printf("replies compared: %lu of random traces, %lu of cases; cases of frames: %lu; %lu passed, %lu failed\n",
           of_traces, of_cases, of_frames, score.passed, score.failed);
    return score.failed == 0 && of_traces > 0 && of_cases > 0 && of_frames > 0 ? EXIT_SUCCESS : EXIT_FAILURE;
}
