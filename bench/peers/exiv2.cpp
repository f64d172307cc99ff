// exiv2, of both kinds of block: parse; and write in the most significant byte first.
#include "driver.h"
#include <exiv2/exiv2.hpp>

static int work(struct block block, int writes) {
    const auto size = static_cast<uint32_t>(block.size);
    if (block.bytes[0] == 0x1C) {
        Exiv2::IptcData data;
        if (Exiv2::IptcParser::decode(data, block.bytes, size))
            return 0;
        if (writes)
            Exiv2::IptcParser::encode(data);
        return 1;
    }
    Exiv2::ExifData data;
    Exiv2::ExifParser::decode(data, block.bytes, size);
    if (writes) {
        Exiv2::Blob form;
        Exiv2::ExifParser::encode(form, Exiv2::bigEndian, data);
    }
    return !data.empty();
}

int main(int count, char **words) {
    if (count != 4)
        return 2;
    Exiv2::LogMsg::setLevel(Exiv2::LogMsg::mute);
    try {
        return timed(words, block_of(words[3], 0), work);
    } catch (const std::exception &) {
        return 1;
    }
}
