// Unverified, like the whole solver. SHA-256, computed by libmd: it identifies a record's formula
// and files.
#ifndef DIGEST_H
#define DIGEST_H

#include <string>

#include <sha256.h>

const size_t DIGEST_DIGITS = SHA256_DIGEST_STRING_LENGTH - 1;
const size_t BEFORE_NAME = DIGEST_DIGITS + 2;  // in a line of sha256sum

// The digest of bytes that come in pieces.
class Digest {
  public:
    Digest() { SHA256_Init(&state); }

    void add(const char *bytes, size_t count) {
        SHA256_Update(&state, reinterpret_cast<const uint8_t *>(bytes), count);
    }
    std::string end() {  // in hexadecimal digits
        char text[DIGEST_DIGITS + 1];
        return SHA256_End(&state, text);
    }

  private:
    SHA256_CTX state;
};

#endif
