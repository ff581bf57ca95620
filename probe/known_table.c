#include "known_table.h"

#include <string.h>

/*
 * Named by their offsets: the numbers that splitmix64 gives from the state 0, each with its
 * lowest byte first. At either width no two words of them are alike, and every vector has
 * words with the highest bit set and words without.
 */
#define BYTES_000 "afcd1d7b39a820e2f465b9a16a9e786e4f450980185dc406ec814c72a8b88bf8"
#define BYTES_032 "9b74a8516a89391beaa27e740c9fcb53e132451fbe9a822c3cab16c93a1384c5"
#define BYTES_064 "c38ac9419078e53ea6b08c368c48b8f3093db13cddec7e65f6de5b05e026d3c2"
#define BYTES_096 "7bdbbbe03fa021862fa93a9855751f8e194dcc00160f4eb5ab801d97973fbb84"
#define BYTES_128 "551252755c82297d867f7f2b1017cfc3644f9183a0e96634ac85445a2b8d1ad8"
#define BYTES_160 "d79e0b102b6001db0df12518928a03a96a2fca0dd9f1f5ed4c63d27bd66a4954"
#define BYTES_192 "697240f5d4017cdd7b4f4cdbf1825e9300332392bc2eb86910d5e17db59ed240"
#define BYTES_224 "16635cb4ab9df0a272384d0f7a1d52ee4f45f372ee5269f12502"
#define BYTES_250 "e4a8de357d37"
#define BYTES_256 "b0ba634906e87d0c29c51a11372d5805f7c69d591f7454d2c308d193750f6369"
#define BYTES_288 "83a3da8161f97e41a14333b4a3413c3cdf31e5cb5d90196e2917852473faa94f"
#define BYTES_320 "2a9292a75444eb84ce75819196704f13a87822300b93dc0737e91970a915c012"
#define BYTES_352 "38f4eb5216c306cc371e690a6365eeecad793e76b1ec843e49ae3a7476d40e69"
#define BYTES_384 "e1f2a1b1d7154677da524f4ff053b322b15e1aa76bd8dde3563351b6de8a26df"
#define BYTES_416 "777d36d473eb9820713cce235384d60314c7430062c552c905174f84ca6b199b"
#define BYTES_448 "c10e9edd450326309896bb82588a44cf5676c8cbdc78a5f48f3c7ba1d9aedebf"
#define BYTES_480 "7b5d5c1d2d4079ed70f1bb1cab70f0551d8fa82949a3003efb18bbb837b255e2"
#define BYTES_512 "0ed56a6caf677b2a43f1463e7f5e6d4672fca499b35c374259b28b8a141f8a8c"
#define BYTES_544 "fcbdd5ae5dabfc32c053858d8c39609ec064408cebcc89ee6fa6861d941502db"
#define BYTES_576 "a867c30382e7cd5c8617c11e6abcbcf1514595eece4f05efdfc655052d0182df"
#define BYTES_608 "083c4072ff6625293711fa1b2a30ddc4e154c5b59d215fd8d2bc417480ff276a"

#define V0_32 BYTES_000
#define V1_32 BYTES_032
#define V0_64 BYTES_000 BYTES_032
#define V1_64 BYTES_064 BYTES_096

/* 250 bytes: at either width the padding does not fit into the block that they end in. */
#define MESSAGE V0_64 V1_64 BYTES_128 BYTES_160 BYTES_192 BYTES_224

#define VECTORS_32 MESSAGE BYTES_250
#define VECTORS_64                                                                         \
    VECTORS_32 BYTES_256 BYTES_288 BYTES_320 BYTES_352 BYTES_384 BYTES_416 BYTES_448       \
        BYTES_480

_Static_assert(sizeof(VECTORS_32) == 2 * EDONR_PLACES * 32 + 1 &&
                   sizeof(VECTORS_64) == 2 * EDONR_PLACES * 64 + 1,
               "there is a vector for every place");

/* Every kind of command, and no vector left alone. */
#define COMMANDS_WITHOUT_K "010007" "020601" "030205" "040403" "050307" "0605"
#define SHEET_32 COMMANDS_WITHOUT_K "0701" BYTES_512 "0804" BYTES_544
#define SHEET_64 COMMANDS_WITHOUT_K "0701" BYTES_512 BYTES_544 "0804" BYTES_576 BYTES_608

#define PRODUCT_32 "29a627589b51e3d3e72430496d17c1a7031f4edbe9d2a24e0ed41ad74229c728"
#define PRODUCT_64                                                                         \
    "08d9c86ec09e656896330b8f1f19b347c5f5f1e9434377b77a1f5c240ef60c5b"                     \
    "9b7f5569afd2109e95b94feb5484135343e2e0b79fbbf22c3b3707f337288706"
#define DIGEST_224 "5e64150ab5f36933d28bdd44ff52296ae19d5ceb740d4583fb5f3446"
#define DIGEST_256 "49cd1ce82521d67ad2ecd9c7d9706bfab25b83d7b98c190f34c8f0ca7dd9b1a7"
#define DIGEST_384                                                                         \
    "cb7c19ced675f8883ed21ff14286d9306b00739497aca37dad63d2962c44569b"                     \
    "99c3c0cea54f78b5800c86026614c78b"
#define DIGEST_512                                                                         \
    "024c9a05522e751c51c727edd423520f6e1e1afecf2b8f2db5492447d955b296"                     \
    "8a5f0084cdb9ebcee476a2138d9bb26e4ce599e69824c6add6c6a064cd39ede3"
#define RUN_32                                                                             \
    "f1be17e7b5c3a228abb7af8168c015a13730e40043848b3678c886fea937b6e0"                     \
    "f09f3ef9ac025af77a7ec25019facace7c0cbd16f51c9783e8ce64426e061d4b"                     \
    "ceeb14b0c44d5202a16a16c41f2ecf12934078fabdaaf059a90fad349e80e6b7"                     \
    "16635cb4ab9df0a272384d0f7a1d52ee4f45f372ee5269f12502e4a8de357d37"                     \
    "137005f4614694a7b644a8c9ea5e077068040f573a39003472d7f5ee619fae89"                     \
    "d66a49544c63d27bd9f1f5ed6a2fca0d928a03a90df125182b6001dbd79e0b10"                     \
    "a0d924f1a0a076465a50048bf7a01d9707c8173bdd3089e8921793cf7e4e2836"                     \
    "7bdbbbe03fa021862fa93a9855751f8e194dcc00160f4eb5ab801d97973fbb84"
#define RUN_64                                                                             \
    "e5843bc43906de97b4cf0f9e70854c7a3c8e5717e8ba333823c1db9207073209"                     \
    "a5c4f097f0ead180e72670f3b8887b761bd872594f7504429b16a1c6005643e4"                     \
    "e142171f166fca563ecf43d8bda75a33aadf6662868e8a9c6d7ce4f7ae82a11e"                     \
    "b392a6df62b0580579272b3f43b3fdefb67910164a157eff059ca8fd366bd01b"                     \
    "ccc6d93768a56bf307b964539628814583878b8a2d2de09e3b2253a5c022d950"                     \
    "4b59588b17fe9789693a88abe89f956d044f9326d83b3cab0bd18beb1be9a668"                     \
    "c10e9edd450326309896bb82588a44cf5676c8cbdc78a5f48f3c7ba1d9aedebf"                     \
    "7b5d5c1d2d4079ed70f1bb1cab70f0551d8fa82949a3003efb18bbb837b255e2"                     \
    "063658f43a6ba1d2951d3da21046f7f5809d09681120f8fbcaac8b0d718c0d48"                     \
    "da66aca62ad5df9224dd50aa942b9c7e1c81d7c07f519f51146254d0bfd2e0a6"                     \
    "49ae3a7476d40e69ad793e76b1ec843e371e690a6365eeec38f4eb5216c306cc"                     \
    "37e91970a915c012a87822300b93dc07ce75819196704f132a9292a75444eb84"                     \
    "fe11f8500ad701310ed2f23b55498c5bae4f632c79ea22dcb96d44add03b66d7"                     \
    "0c733e412fb3cb2fb07739a0ee3429fb5b6cc6537f120c06b257b419b1afd6d5"                     \
    "697240f5d4017cdd7b4f4cdbf1825e9300332392bc2eb86910d5e17db59ed240"                     \
    "16635cb4ab9df0a272384d0f7a1d52ee4f45f372ee5269f12502e4a8de357d37"

const struct known known_table[KNOWN_ANSWERS] = {
    {"product, width 32", KNOWN_PRODUCT, 32, V0_32, V1_32, PRODUCT_32, 32},
    {"product, width 64", KNOWN_PRODUCT, 64, V0_64, V1_64, PRODUCT_64, 64},
    {"left division, width 32", KNOWN_LEFT_DIVISION, 32, V0_32, PRODUCT_32, V1_32, 32},
    {"left division, width 64", KNOWN_LEFT_DIVISION, 64, V0_64, PRODUCT_64, V1_64, 64},
    {"right division, width 32", KNOWN_RIGHT_DIVISION, 32, PRODUCT_32, V1_32, V0_32, 32},
    {"right division, width 64", KNOWN_RIGHT_DIVISION, 64, PRODUCT_64, V1_64, V0_64, 64},
    {"digest, size 224", KNOWN_DIGEST, 224, MESSAGE, "", DIGEST_224, 28},
    {"digest, size 256", KNOWN_DIGEST, 256, MESSAGE, "", DIGEST_256, 32},
    {"digest, size 384", KNOWN_DIGEST, 384, MESSAGE, "", DIGEST_384, 48},
    {"digest, size 512", KNOWN_DIGEST, 512, MESSAGE, "", DIGEST_512, 64},
    {"digest in pieces, size 224", KNOWN_PIECES, 224, MESSAGE, "", DIGEST_224, 28},
    {"digest in pieces, size 256", KNOWN_PIECES, 256, MESSAGE, "", DIGEST_256, 32},
    {"digest in pieces, size 384", KNOWN_PIECES, 384, MESSAGE, "", DIGEST_384, 48},
    {"digest in pieces, size 512", KNOWN_PIECES, 512, MESSAGE, "", DIGEST_512, 64},
    {"forward run, width 32", KNOWN_FORWARD, 32, VECTORS_32, SHEET_32, RUN_32, 6},
    {"forward run, width 64", KNOWN_FORWARD, 64, VECTORS_64, SHEET_64, RUN_64, 6},
    {"backward run, width 32", KNOWN_BACKWARD, 32, RUN_32, SHEET_32, VECTORS_32, 6},
    {"backward run, width 64", KNOWN_BACKWARD, 64, RUN_64, SHEET_64, VECTORS_64, 6},
};

static uint8_t digit(char text)
{
    return (uint8_t)(text <= '9' ? text - '0' : text - 'a' + 10);
}

struct known_bytes known_bytes(const char *text)
{
    struct known_bytes bytes = {.len = strlen(text) / 2};
    for (size_t i = 0; i < bytes.len; i++)
        bytes.at[i] = (uint8_t)(digit(text[2 * i]) << 4 | digit(text[2 * i + 1]));
    return bytes;
}
