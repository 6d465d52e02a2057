// Compares the lines of keystreams.rs, read from standard input, with Crypto++.

#include <cryptopp/hc128.h>
#include <cryptopp/hc256.h>
#include <cryptopp/hex.h>
#include <cryptopp/filters.h>
#include <iostream>
#include <string>
#include <utility>

static std::string bytes_of(const std::string &hexadecimal) {
    std::string bytes;
    CryptoPP::StringSource(hexadecimal, true, new CryptoPP::HexDecoder(new CryptoPP::StringSink(bytes)));
    return bytes;
}

// Exchanges bytes 1 and 3 of each word. Crypto++ 8.7 follows eSTREAM's reference code of HC-256 and reads each key and IV
// word with these two bytes exchanged; document 01 and Bouncy Castle read them least significant first.
static std::string exchanged(std::string bytes) {
    for (size_t i = 0; i + 3 < bytes.size(); i += 4)
        std::swap(bytes[i + 1], bytes[i + 3]);
    return bytes;
}

template <class Cipher> static bool same(const std::string &key, const std::string &iv, const std::string &stream) {
    typename Cipher::Encryption cipher;
    cipher.SetKeyWithIV((const CryptoPP::byte *)key.data(), key.size(), (const CryptoPP::byte *)iv.data(), iv.size());
    // Input and output are apart; in place, the HC ciphers of Crypto++ 8.7 turn whole blocks into zeros.
    std::string zeros(stream.size(), '\0'), bytes(stream.size(), '\0');
    cipher.ProcessData((CryptoPP::byte *)&bytes[0], (const CryptoPP::byte *)zeros.data(), bytes.size());
    return bytes == stream;
}

int main() {
    int lines[3] = {0, 0, 0}, equal[3] = {0, 0, 0}, code;
    std::string key, iv, stream;
    while (std::cin >> code >> key >> iv >> stream) {
        key = bytes_of(key), iv = bytes_of(iv), stream = bytes_of(stream);
        lines[code]++;
        // Crypto++ 8.7 reads the key and IV words of HC-128 least significant first, as document 01 does.
        if (code == 1 && same<CryptoPP::HC128>(key, iv, stream))
            equal[code]++;
        if (code == 2 && same<CryptoPP::HC256>(exchanged(key), exchanged(iv), stream))
            equal[code]++;
    }
    std::cout << "Crypto++ HC-128: " << equal[1] << " of " << lines[1] << " keystreams equal\n";
    std::cout << "Crypto++ HC-256: " << equal[2] << " of " << lines[2] << " keystreams equal, key and IV bytes 1 and 3 exchanged\n";
    return lines[1] > 0 && lines[2] > 0 && equal[1] == lines[1] && equal[2] == lines[2] ? 0 : 1;
}
