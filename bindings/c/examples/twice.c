#include <mbe.h>
#include <stdio.h>

int main(void) {
    char text[256], message[256];
    mbe_output out = {NULL, 0, text, sizeof text, message, sizeof message};
    mbe_request request = mbe_rust_request(MBE_RUST);
    mbe_input definition = mbe_text("($x:ident) => {$x $x}");
    mbe_reply reply;
    mbe_status status =
        mbe_expand(&request, NULL, 0, definition, mbe_text("a"), out, &reply);
    if (status == MBE_DONE) printf("%.*s\n", (int)reply.text, text);
    else fprintf(stderr, "%s\n", mbe_status_text(status));
    return status != MBE_DONE;
}
