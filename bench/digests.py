#!/usr/bin/env python3
"""What `sg_bench` must print, by another implementation of RFC 3711. The opened packets are counted as
the sealed ones: `sg_bench` itself compares them with what it sealed."""

import hashlib

from packets import MasterKey, packet
from srtp import SUITES as LENGTHS

SUITES = [
    "AES_CM_128_HMAC_SHA1_80",
    "AES_CM_128_HMAC_SHA1_32",
    "AES_192_CM_HMAC_SHA1_80",
    "AES_192_CM_HMAC_SHA1_32",
    "AES_256_CM_HMAC_SHA1_80",
    "AES_256_CM_HMAC_SHA1_32",
]
COUNT = 200


def main():
    for suite in SUITES:
        key_len, salt_len, _ = LENGTHS[suite]
        key = MasterKey(suite, bytes(range(key_len + salt_len)))
        for size in (172, 1400):
            sealed = b"".join(key.srtp(packet(n, size), n) for n in range(COUNT))
            sha1 = hashlib.sha1(sealed).hexdigest()
            print(f"{suite} {size} sealed {COUNT} octets {len(sealed)} sha1 {sha1} opened {COUNT}")


if __name__ == "__main__":
    main()
