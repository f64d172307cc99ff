/* exifnorm_names.h: names of fields, and sentences for statuses and causes. packaging/names.py prints this file.
 *
 *     while (exifnorm_fields_next(&fields, &field))
 *         printf("%s:%s\n", exifnorm_field_group(&field), exifnorm_field_name(&field));      IFD0:Artist
 *
 * The names and the groups are those that ExifTool and the command exifnorm-pictures print. All texts are ASCII, are in the program
 * itself, and end with a zero byte. A header alone, for C99 and C++11; a program that doesn't need its 7,591 bytes of texts leaves it out.
 */
#ifndef EXIFNORM_NAMES_H
#define EXIFNORM_NAMES_H

#include "exifnorm_fields.h"

#ifdef __cplusplus
extern "C" {
#endif

struct exifnorm_name_ {
    uint32_t tag;
    const char *name;
};

static const struct exifnorm_name_ exifnorm_main_names_[179] = {
    {0x00FE, "SubfileType"}, {0x00FF, "OldSubfileType"}, {0x0100, "ImageWidth"}, {0x0101, "ImageHeight"}, {0x0102, "BitsPerSample"},
    {0x0103, "Compression"}, {0x0106, "PhotometricInterpretation"}, {0x0107, "Thresholding"}, {0x0108, "CellWidth"},
    {0x0109, "CellLength"}, {0x010A, "FillOrder"}, {0x010D, "DocumentName"}, {0x010E, "ImageDescription"}, {0x010F, "Make"},
    {0x0110, "Model"}, {0x0111, "StripOffsets"}, {0x0112, "Orientation"}, {0x0115, "SamplesPerPixel"}, {0x0116, "RowsPerStrip"},
    {0x0117, "StripByteCounts"}, {0x0118, "MinSampleValue"}, {0x0119, "MaxSampleValue"}, {0x011A, "XResolution"},
    {0x011B, "YResolution"}, {0x011C, "PlanarConfiguration"}, {0x011D, "PageName"}, {0x011E, "XPosition"}, {0x011F, "YPosition"},
    {0x0120, "FreeOffsets"}, {0x0121, "FreeByteCounts"}, {0x0122, "GrayResponseUnit"}, {0x0123, "GrayResponseCurve"},
    {0x0124, "T4Options"}, {0x0125, "T6Options"}, {0x0128, "ResolutionUnit"}, {0x0129, "PageNumber"}, {0x012D, "TransferFunction"},
    {0x0131, "Software"}, {0x0132, "ModifyDate"}, {0x013B, "Artist"}, {0x013C, "HostComputer"}, {0x013D, "Predictor"},
    {0x013E, "WhitePoint"}, {0x013F, "PrimaryChromaticities"}, {0x0140, "ColorMap"}, {0x0141, "HalftoneHints"}, {0x0142, "TileWidth"},
    {0x0143, "TileLength"}, {0x0144, "TileOffsets"}, {0x0145, "TileByteCounts"}, {0x014A, "SubIFDs"}, {0x014C, "InkSet"},
    {0x014D, "InkNames"}, {0x014E, "NumberofInks"}, {0x0150, "DotRange"}, {0x0151, "TargetPrinter"}, {0x0152, "ExtraSamples"},
    {0x0153, "SampleFormat"}, {0x0154, "SMinSampleValue"}, {0x0155, "SMaxSampleValue"}, {0x0156, "TransferRange"},
    {0x0200, "JPEGProc"}, {0x0201, "ThumbnailOffset"}, {0x0202, "ThumbnailLength"}, {0x0203, "JPEGRestartInterval"},
    {0x0205, "JPEGLosslessPredictors"}, {0x0206, "JPEGPointTransforms"}, {0x0207, "JPEGQTables"}, {0x0208, "JPEGDCTables"},
    {0x0209, "JPEGACTables"}, {0x0211, "YCbCrCoefficients"}, {0x0212, "YCbCrSubSampling"}, {0x0213, "YCbCrPositioning"},
    {0x0214, "ReferenceBlackWhite"}, {0x02BC, "ApplicationNotes"}, {0x4746, "Rating"}, {0x4749, "RatingPercent"},
    {0x8298, "Copyright"}, {0x829A, "ExposureTime"}, {0x829D, "FNumber"}, {0x83BB, "IPTC-NAA"}, {0x8649, "PhotoshopResources"},
    {0x8769, "ExifIFDPointer"}, {0x8773, "ICCProfile"}, {0x8822, "ExposureProgram"}, {0x8824, "SpectralSensitivity"},
    {0x8825, "GPSInfoIFDPointer"}, {0x8827, "ISO"}, {0x8828, "Opto-ElectricConvFactor"}, {0x8830, "SensitivityType"},
    {0x8831, "StandardOutputSensitivity"}, {0x8832, "RecommendedExposureIndex"}, {0x8833, "ISOSpeed"}, {0x8834, "ISOSpeedLatitudeyyy"},
    {0x8835, "ISOSpeedLatitudezzz"}, {0x9000, "ExifVersion"}, {0x9003, "DateTimeOriginal"}, {0x9004, "CreateDate"},
    {0x9010, "OffsetTime"}, {0x9011, "OffsetTimeOriginal"}, {0x9012, "OffsetTimeDigitized"}, {0x9101, "ComponentsConfiguration"},
    {0x9102, "CompressedBitsPerPixel"}, {0x9201, "ShutterSpeedValue"}, {0x9202, "ApertureValue"}, {0x9203, "BrightnessValue"},
    {0x9204, "ExposureCompensation"}, {0x9205, "MaxApertureValue"}, {0x9206, "SubjectDistance"}, {0x9207, "MeteringMode"},
    {0x9208, "LightSource"}, {0x9209, "Flash"}, {0x920A, "FocalLength"}, {0x9214, "SubjectArea"}, {0x927C, "MakerNote"},
    {0x9286, "UserComment"}, {0x9290, "SubSecTime"}, {0x9291, "SubSecTimeOriginal"}, {0x9292, "SubSecTimeDigitized"},
    {0x9400, "AmbientTemperature"}, {0x9401, "Humidity"}, {0x9402, "Pressure"}, {0x9403, "WaterDepth"}, {0x9404, "Acceleration"},
    {0x9405, "CameraElevationAngle"}, {0x9C9B, "XPTitle"}, {0x9C9C, "XPComment"}, {0x9C9D, "XPAuthor"}, {0x9C9E, "XPKeywords"},
    {0x9C9F, "XPSubject"}, {0xA000, "FlashpixVersion"}, {0xA001, "ColorSpace"}, {0xA002, "ExifImageWidth"},
    {0xA003, "ExifImageHeight"}, {0xA004, "RelatedSoundFile"}, {0xA005, "InteroperabilityIFDPointer"}, {0xA20B, "FlashEnergy"},
    {0xA20C, "SpatialFrequencyResponse"}, {0xA20E, "FocalPlaneXResolution"}, {0xA20F, "FocalPlaneYResolution"},
    {0xA210, "FocalPlaneResolutionUnit"}, {0xA214, "SubjectLocation"}, {0xA215, "ExposureIndex"}, {0xA217, "SensingMethod"},
    {0xA300, "FileSource"}, {0xA301, "SceneType"}, {0xA302, "CFAPattern"}, {0xA401, "CustomRendered"}, {0xA402, "ExposureMode"},
    {0xA403, "WhiteBalance"}, {0xA404, "DigitalZoomRatio"}, {0xA405, "FocalLengthIn35mmFormat"}, {0xA406, "SceneCaptureType"},
    {0xA407, "GainControl"}, {0xA408, "Contrast"}, {0xA409, "Saturation"}, {0xA40A, "Sharpness"}, {0xA40B, "DeviceSettingDescription"},
    {0xA40C, "SubjectDistanceRange"}, {0xA420, "ImageUniqueID"}, {0xA430, "OwnerName"}, {0xA431, "SerialNumber"}, {0xA432, "LensInfo"},
    {0xA433, "LensMake"}, {0xA434, "LensModel"}, {0xA435, "LensSerialNumber"}, {0xA436, "ImageTitle"}, {0xA437, "Photographer"},
    {0xA438, "ImageEditor"}, {0xA439, "CameraFirmware"}, {0xA43A, "RAWDevelopingSoftware"}, {0xA43B, "ImageEditingSoftware"},
    {0xA43C, "MetadataEditingSoftware"}, {0xA460, "CompositeImage"}, {0xA461, "CompositeImageCount"},
    {0xA462, "CompositeImageExposureTimes"}, {0xA500, "Gamma"}, {0xC4A5, "PrintIM"}, {0xEA1C, "Padding"}};

static const struct exifnorm_name_ exifnorm_iptc_names_[71] = {
    {0x0100, "EnvelopeRecordVersion"}, {0x0105, "Destination"}, {0x0114, "FileFormat"}, {0x0116, "FileVersion"},
    {0x011E, "ServiceIdentifier"}, {0x0128, "EnvelopeNumber"}, {0x0132, "ProductID"}, {0x013C, "EnvelopePriority"},
    {0x0146, "DateSent"}, {0x0150, "TimeSent"}, {0x015A, "CodedCharacterSet"}, {0x0164, "UniqueObjectName"}, {0x0178, "ARMIdentifier"},
    {0x017A, "ARMVersion"}, {0x0200, "ApplicationRecordVersion"}, {0x0203, "ObjectTypeReference"},
    {0x0204, "ObjectAttributeReference"}, {0x0205, "ObjectName"}, {0x0207, "EditStatus"}, {0x0208, "EditorialUpdate"},
    {0x020A, "Urgency"}, {0x020C, "SubjectReference"}, {0x020F, "Category"}, {0x0214, "SupplementalCategories"},
    {0x0216, "FixtureIdentifier"}, {0x0219, "Keywords"}, {0x021A, "ContentLocationCode"}, {0x021B, "ContentLocationName"},
    {0x021E, "ReleaseDate"}, {0x0223, "ReleaseTime"}, {0x0225, "ExpirationDate"}, {0x0226, "ExpirationTime"},
    {0x0228, "SpecialInstructions"}, {0x022A, "ActionAdvised"}, {0x022D, "ReferenceService"}, {0x022F, "ReferenceDate"},
    {0x0232, "ReferenceNumber"}, {0x0237, "DateCreated"}, {0x023C, "TimeCreated"}, {0x023E, "DigitalCreationDate"},
    {0x023F, "DigitalCreationTime"}, {0x0241, "OriginatingProgram"}, {0x0246, "ProgramVersion"}, {0x024B, "ObjectCycle"},
    {0x0250, "By-line"}, {0x0255, "By-lineTitle"}, {0x025A, "City"}, {0x025C, "Sub-location"}, {0x025F, "Province-State"},
    {0x0264, "Country-PrimaryLocationCode"}, {0x0265, "Country-PrimaryLocationName"}, {0x0267, "OriginalTransmissionReference"},
    {0x0269, "Headline"}, {0x026E, "Credit"}, {0x0273, "Source"}, {0x0274, "CopyrightNotice"}, {0x0276, "Contact"},
    {0x0278, "Caption-Abstract"}, {0x027A, "Writer-Editor"}, {0x027D, "RasterizedCaption"}, {0x0282, "ImageType"},
    {0x0283, "ImageOrientation"}, {0x0287, "LanguageIdentifier"}, {0x0296, "AudioType"}, {0x0297, "AudioSamplingRate"},
    {0x0298, "AudioSamplingResolution"}, {0x0299, "AudioDuration"}, {0x029A, "AudioOutcue"}, {0x02C8, "ObjectPreviewFileFormat"},
    {0x02C9, "ObjectPreviewFileVersion"}, {0x02CA, "ObjectPreviewData"}};

static const struct exifnorm_name_ exifnorm_interop_names_[5] = {
    {0x0001, "InteropIndex"}, {0x0002, "InteropVersion"}, {0x1000, "RelatedImageFileFormat"}, {0x1001, "RelatedImageWidth"},
    {0x1002, "RelatedImageHeight"}};

static const struct exifnorm_name_ exifnorm_gps_names_[32] = {
    {0x0000, "GPSVersionID"}, {0x0001, "GPSLatitudeRef"}, {0x0002, "GPSLatitude"}, {0x0003, "GPSLongitudeRef"},
    {0x0004, "GPSLongitude"}, {0x0005, "GPSAltitudeRef"}, {0x0006, "GPSAltitude"}, {0x0007, "GPSTimeStamp"}, {0x0008, "GPSSatellites"},
    {0x0009, "GPSStatus"}, {0x000A, "GPSMeasureMode"}, {0x000B, "GPSDOP"}, {0x000C, "GPSSpeedRef"}, {0x000D, "GPSSpeed"},
    {0x000E, "GPSTrackRef"}, {0x000F, "GPSTrack"}, {0x0010, "GPSImgDirectionRef"}, {0x0011, "GPSImgDirection"},
    {0x0012, "GPSMapDatum"}, {0x0013, "GPSDestLatitudeRef"}, {0x0014, "GPSDestLatitude"}, {0x0015, "GPSDestLongitudeRef"},
    {0x0016, "GPSDestLongitude"}, {0x0017, "GPSDestBearingRef"}, {0x0018, "GPSDestBearing"}, {0x0019, "GPSDestDistanceRef"},
    {0x001A, "GPSDestDistance"}, {0x001B, "GPSProcessingMethod"}, {0x001C, "GPSAreaInformation"}, {0x001D, "GPSDateStamp"},
    {0x001E, "GPSDifferential"}, {0x001F, "GPSHPositioningError"}};

/* The name in a table whose tags ascend, or NULL. */
static inline const char *exifnorm_find_(const struct exifnorm_name_ *names, size_t count, uint32_t tag) {
    size_t first = 0;
    while (first < count) {
        size_t middle = first + (count - first) / 2;
        if (names[middle].tag == tag)
            return names[middle].name;
        if (names[middle].tag < tag)
            first = middle + 1;
        else
            count = middle;
    }
    return NULL;
}

/* The name of a field, as "Artist", "GPSLatitude" or "Keywords". NULL if its tag or DataSet has none: then print the number. */
static inline const char *exifnorm_field_name(const struct exifnorm_field *field) {
    if (field->type == EXIFNORM_TYPE_JPEG)
        return "ThumbnailImage";
    if (field->type == EXIFNORM_TYPE_STRIP)
        return "ThumbnailTIFF";
    switch (field->directory) {
    case EXIFNORM_DIRECTORY_MAIN: return exifnorm_find_(exifnorm_main_names_, 179, field->tag);
    case EXIFNORM_DIRECTORY_RECORD: return exifnorm_find_(exifnorm_iptc_names_, 71, field->tag);
    case EXIFNORM_DIRECTORY_EXIF: return exifnorm_find_(exifnorm_main_names_, 179, field->tag);
    case EXIFNORM_DIRECTORY_INTEROP: return exifnorm_find_(exifnorm_interop_names_, 5, field->tag);
    case EXIFNORM_DIRECTORY_GPS: return exifnorm_find_(exifnorm_gps_names_, 32, field->tag);
    case EXIFNORM_DIRECTORY_THUMBNAIL: return exifnorm_find_(exifnorm_main_names_, 179, field->tag);
    default: return NULL;
    }
}

/* The group of a field: "IFD0", "IPTC", "ExifIFD", "InteropIFD", "GPS", "IFD1". "" for a number that is no directory. */
static inline const char *exifnorm_field_group(const struct exifnorm_field *field) {
    static const char *const groups[6] = {"IFD0", "IPTC", "ExifIFD", "InteropIFD", "GPS", "IFD1"};
    return field->directory < 6 ? groups[field->directory] : "";
}

/* What a status means, in a sentence. "" for a number that is no status. */
static inline const char *exifnorm_status_text(uint32_t status) {
    switch (status) {
    case EXIFNORM_DONE: return "The call has succeeded.";
    case EXIFNORM_REFUSED: return "The block, the packet or the head of the JPEG is refused; of two, the first.";
    case EXIFNORM_TOO_LONG: return "The block is valid, but its normal form is too long.";
    case EXIFNORM_NO_MEMORY: return "There is not enough memory.";
    case EXIFNORM_TOO_LITTLE_ROOM: return "The output is too short.";
    case EXIFNORM_SECOND_REFUSED: return "The second block or JPEG is refused.";
    case EXIFNORM_NOT_READ: return "A part of the JPEG was not read; or of the first of two, which are the same as far as they were read.";
    case EXIFNORM_SECOND_NOT_READ: return "Two JPEGs are the same as far as they were read; a part of the second was not read.";
    case EXIFNORM_RARE: return "The packet of XMP is in a rare form, which this library does not read.";
    default: return "";
    }
}

/* What is wrong, in a sentence, by the cause of a block's refusal, that of a JPEG's head or that of a packet of XMP. "" for a number that is
 * no cause. */
static inline const char *exifnorm_cause_text(uint32_t cause) {
    switch (cause) {
    case EXIFNORM_CAUSE_TOO_LONG: return "The block is longer than 16,777,216 bytes.";
    case EXIFNORM_CAUSE_UNKNOWN_KIND: return "The input is neither an Exif block nor an IPTC record.";
    case EXIFNORM_CAUSE_HEADER_CUT: return "The block ends inside its first eight bytes.";
    case EXIFNORM_CAUSE_LOOP: return "An offset leads to a directory that was already read: following the offsets would never end.";
    case EXIFNORM_CAUSE_DIRECTORY_OUTSIDE: return "A directory is not completely inside the block.";
    case EXIFNORM_CAUSE_EMPTY_DIRECTORY: return "A directory has no entry.";
    case EXIFNORM_CAUSE_OVERLAP: return "Two parts of the block share bytes.";
    case EXIFNORM_CAUSE_UNSORTED: return "The tags of a directory don't ascend.";
    case EXIFNORM_CAUSE_DOUBLED: return "A directory has a tag twice.";
    case EXIFNORM_CAUSE_UNKNOWN_TYPE: return "A field has an unknown type.";
    case EXIFNORM_CAUSE_MISPLACED_OFFSET: return "A field has offsets of data outside the directory that aren't followed here.";
    case EXIFNORM_CAUSE_POINTER_FORM: return "A pointer, or an offset or length of the thumbnail, is not a LONG with a count of 1.";
    case EXIFNORM_CAUSE_VALUE_OUTSIDE: return "A value passes the end of the block.";
    case EXIFNORM_CAUSE_THUMBNAIL_PAIR: return "The offset or the length of the thumbnail is missing, or the lists of strips differ in length.";
    case EXIFNORM_CAUSE_EXTRA_DIRECTORY: return "A further directory follows the thumbnail directory.";
    case EXIFNORM_CAUSE_THUMBNAIL_OUTSIDE: return "The thumbnail passes the end of the block.";
    case EXIFNORM_CAUSE_NO_MARKER: return "There is no octet 1C where a DataSet must begin.";
    case EXIFNORM_CAUSE_LENGTH_FORM: return "The length of an extended DataSet has no octets, or more than four.";
    case EXIFNORM_CAUSE_DATASET_CUT: return "A DataSet passes the end of the block.";
    case EXIFNORM_JPEG_NO_START: return "The bytes don't begin as a JPEG does, with FF D8.";
    case EXIFNORM_JPEG_NO_MARKER: return "The head of the JPEG is damaged: there is no marker where a segment must begin.";
    case EXIFNORM_JPEG_LENGTH_FORM: return "The head of the JPEG is damaged: a segment's length is less than 2.";
    case EXIFNORM_JPEG_HEAD_CUT: return "The JPEG ends inside its head, before the first scan.";
    case EXIFNORM_JPEG_TOO_LONG: return "The blocks of the JPEG that are in several pieces are too long together.";
    case EXIFNORM_XMP_TOO_LONG: return "The packet is longer than 16,777,216 bytes.";
    case EXIFNORM_XMP_BAD_CHARACTER: return "The packet has bytes that are no UTF-8, or a character that XML does not allow.";
    case EXIFNORM_XMP_BAD_MARKUP: return "The packet is not well-formed: a tag, a comment or a section is damaged or cut.";
    case EXIFNORM_XMP_BAD_REFERENCE: return "The packet is not well-formed: an & begins no reference that XML has.";
    case EXIFNORM_XMP_DOCUMENT_TYPE: return "The packet has a document type declaration, which XMP does not allow.";
    case EXIFNORM_XMP_OTHER_END: return "The packet is not well-formed: an end tag has another name than its element.";
    case EXIFNORM_XMP_ATTRIBUTE_TWICE: return "The packet is not well-formed: a tag has an attribute twice.";
    case EXIFNORM_XMP_BAD_PREFIX: return "The packet is not well-formed: a prefix is not declared, or a declaration is not allowed.";
    case EXIFNORM_XMP_NO_ROOT: return "The packet is not one XML element: it is empty, or has text or elements beside the root.";
    case EXIFNORM_XMP_TOO_DEEP: return "More than 100 elements are nested in one another.";
    case EXIFNORM_XMP_NO_RDF: return "The packet is not x:xmpmeta around one rdf:RDF, nor rdf:RDF by itself.";
    case EXIFNORM_XMP_SEVERAL_SUBJECTS: return "The packet makes statements about several subjects.";
    case EXIFNORM_XMP_RARE_ENCODING: return "The packet is not in UTF-8, or has a rare XML declaration.";
    case EXIFNORM_XMP_RARE_NAME: return "A name in the packet is not of ASCII.";
    case EXIFNORM_XMP_RARE_NAMESPACE: return "A namespace in the packet is a rare one: it is long, has odd characters, is a mere name, or begins as that of RDF or XML.";
    case EXIFNORM_XMP_RARE_COUNT: return "A tag has more than 256 attributes, or too many prefixes are declared at one place.";
    case EXIFNORM_XMP_RARE_ELEMENT: return "The packet has an element in a rare form of RDF/XML.";
    case EXIFNORM_XMP_RARE_ATTRIBUTE: return "The packet has an attribute in a rare form of RDF/XML.";
    case EXIFNORM_XMP_RARE_TEXT: return "The packet has text between elements.";
    case EXIFNORM_XMP_RARE_LANGUAGE: return "A text has a language that is none, or has more than 100 characters.";
    case EXIFNORM_XMP_RARE_RESOURCE: return "A resource is no absolute URI of ASCII.";
    case EXIFNORM_XMP_RARE_REPEATED: return "A property stands twice in one place.";
    case EXIFNORM_XMP_RARE_LENGTH: return "The normal form would be longer than 16,777,216 bytes.";
    case EXIFNORM_XMP_RARE_DEPTH: return "More than 100 elements would be nested in one another in the normal form.";
    default: return "";
    }
}

#ifdef __cplusplus
}
#endif

#endif
