// exiv2's library reads Exif, IPTC and XMP of the pictures in a list, a name in each line. Its status is 1 if one of them has none.
#include <exiv2/exiv2.hpp>
#include <exception>
#include <fstream>
#include <string>

static bool has_fields(const std::string &name) {
    try {
        auto picture = Exiv2::ImageFactory::open(name);
        picture->readMetadata();
        return picture->exifData().count() + picture->iptcData().count() + picture->xmpData().count() > 0;
    } catch (const std::exception &) {
        return false;
    }
}

int main(int count, char **words) {
    if (count != 2)
        return 2;
    Exiv2::LogMsg::setLevel(Exiv2::LogMsg::mute);
    std::ifstream list(words[1]);
    int status = 0;
    for (std::string name; std::getline(list, name);)
        if (!has_fields(name))
            status = 1;
    return status;
}
