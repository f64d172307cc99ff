"""Names of tags and DataSets by the standards: TIFF 6.0, CIPA DC-008 (Exif), IPTC-NAA IIM 4.2; and a few others in wide use.

A tag without a name keeps its number. The names are for people; comparisons use the number.
"""

from __future__ import annotations

import functools
import re

from ..model.budgets import CACHED


DIRECTORIES = {
    "main": "main directory (0th IFD)",
    "exif": "Exif directory",
    "interop": "Interoperability directory",
    "gps": "GPS directory",
    "thumb": "thumbnail directory (1st IFD)",
    "iptc": "IPTC record",
    "xmp": "XMP packet",
}


def _table(text: str) -> dict[str, str]:
    words = text.split()
    return dict(zip(words[0::2], words[1::2]))


_TIFF = _table(
    """
00fe NewSubfileType 00ff SubfileType 0100 ImageWidth 0101 ImageLength 0102 BitsPerSample 0103 Compression
0106 PhotometricInterpretation 0107 Threshholding 0108 CellWidth 0109 CellLength 010a FillOrder 010d DocumentName
010e ImageDescription 010f Make 0110 Model 0111 StripOffsets 0112 Orientation 0115 SamplesPerPixel 0116 RowsPerStrip
0117 StripByteCounts 0118 MinSampleValue 0119 MaxSampleValue 011a XResolution 011b YResolution 011c PlanarConfiguration
011d PageName 011e XPosition 011f YPosition 0120 FreeOffsets 0121 FreeByteCounts 0122 GrayResponseUnit
0123 GrayResponseCurve 0124 T4Options 0125 T6Options 0128 ResolutionUnit 0129 PageNumber 012d TransferFunction
0131 Software 0132 DateTime 013b Artist 013c HostComputer 013d Predictor 013e WhitePoint 013f PrimaryChromaticities
0140 ColorMap 0141 HalftoneHints 0142 TileWidth 0143 TileLength 0144 TileOffsets 0145 TileByteCounts 014a SubIFDs
014c InkSet 014d InkNames 014e NumberOfInks 0150 DotRange 0151 TargetPrinter 0152 ExtraSamples 0153 SampleFormat
0154 SMinSampleValue 0155 SMaxSampleValue 0156 TransferRange 0200 JPEGProc 0201 JPEGInterchangeFormat
0202 JPEGInterchangeFormatLength 0203 JPEGRestartInterval 0205 JPEGLosslessPredictors 0206 JPEGPointTransforms
0207 JPEGQTables 0208 JPEGDCTables 0209 JPEGACTables 0211 YCbCrCoefficients 0212 YCbCrSubSampling 0213 YCbCrPositioning
0214 ReferenceBlackWhite 02bc XMP 4746 Rating 4749 RatingPercent 8298 Copyright 83bb IPTC 8649 PhotoshopResources
8769 ExifIFDPointer 8773 ICCProfile 8825 GPSInfoIFDPointer 9c9b XPTitle 9c9c XPComment 9c9d XPAuthor 9c9e XPKeywords
9c9f XPSubject c4a5 PrintImageMatching ea1c Padding
"""
)

_EXIF = _table(
    """
829a ExposureTime 829d FNumber 8822 ExposureProgram 8824 SpectralSensitivity 8827 PhotographicSensitivity 8828 OECF
8830 SensitivityType 8831 StandardOutputSensitivity 8832 RecommendedExposureIndex 8833 ISOSpeed
8834 ISOSpeedLatitudeyyy 8835 ISOSpeedLatitudezzz 9000 ExifVersion 9003 DateTimeOriginal 9004 DateTimeDigitized
9010 OffsetTime 9011 OffsetTimeOriginal 9012 OffsetTimeDigitized 9101 ComponentsConfiguration
9102 CompressedBitsPerPixel 9201 ShutterSpeedValue 9202 ApertureValue 9203 BrightnessValue 9204 ExposureBiasValue
9205 MaxApertureValue 9206 SubjectDistance 9207 MeteringMode 9208 LightSource 9209 Flash 920a FocalLength
9214 SubjectArea 927c MakerNote 9286 UserComment 9290 SubSecTime 9291 SubSecTimeOriginal 9292 SubSecTimeDigitized
9400 Temperature 9401 Humidity 9402 Pressure 9403 WaterDepth 9404 Acceleration 9405 CameraElevationAngle
a000 FlashpixVersion a001 ColorSpace a002 PixelXDimension a003 PixelYDimension a004 RelatedSoundFile
a005 InteroperabilityIFDPointer a20b FlashEnergy a20c SpatialFrequencyResponse a20e FocalPlaneXResolution
a20f FocalPlaneYResolution a210 FocalPlaneResolutionUnit a214 SubjectLocation a215 ExposureIndex a217 SensingMethod
a300 FileSource a301 SceneType a302 CFAPattern a401 CustomRendered a402 ExposureMode a403 WhiteBalance
a404 DigitalZoomRatio a405 FocalLengthIn35mmFilm a406 SceneCaptureType a407 GainControl a408 Contrast a409 Saturation
a40a Sharpness a40b DeviceSettingDescription a40c SubjectDistanceRange a420 ImageUniqueID a430 CameraOwnerName
a431 BodySerialNumber a432 LensSpecification a433 LensMake a434 LensModel a435 LensSerialNumber a436 ImageTitle
a437 Photographer a438 ImageEditor a439 CameraFirmware a43a RAWDevelopingSoftware a43b ImageEditingSoftware
a43c MetadataEditingSoftware a460 CompositeImage a461 SourceImageNumberOfCompositeImage
a462 SourceExposureTimesOfCompositeImage a500 Gamma
"""
)

_GPS = _table(
    """
0000 GPSVersionID 0001 GPSLatitudeRef 0002 GPSLatitude 0003 GPSLongitudeRef 0004 GPSLongitude 0005 GPSAltitudeRef
0006 GPSAltitude 0007 GPSTimeStamp 0008 GPSSatellites 0009 GPSStatus 000a GPSMeasureMode 000b GPSDOP 000c GPSSpeedRef
000d GPSSpeed 000e GPSTrackRef 000f GPSTrack 0010 GPSImgDirectionRef 0011 GPSImgDirection 0012 GPSMapDatum
0013 GPSDestLatitudeRef 0014 GPSDestLatitude 0015 GPSDestLongitudeRef 0016 GPSDestLongitude 0017 GPSDestBearingRef
0018 GPSDestBearing 0019 GPSDestDistanceRef 001a GPSDestDistance 001b GPSProcessingMethod 001c GPSAreaInformation
001d GPSDateStamp 001e GPSDifferential 001f GPSHPositioningError
"""
)

_INTEROP = _table(
    """
0001 InteroperabilityIndex 0002 InteroperabilityVersion 1000 RelatedImageFileFormat 1001 RelatedImageWidth
1002 RelatedImageLength
"""
)

_IIM = _table(
    """
1:0 ModelVersion 1:5 Destination 1:20 FileFormat 1:22 FileFormatVersion 1:30 ServiceIdentifier 1:40 EnvelopeNumber
1:50 ProductID 1:60 EnvelopePriority 1:70 DateSent 1:80 TimeSent 1:90 CodedCharacterSet 1:100 UNO 1:120 ARMIdentifier
1:122 ARMVersion 2:0 RecordVersion 2:3 ObjectTypeReference 2:4 ObjectAttributeReference 2:5 ObjectName 2:7 EditStatus
2:8 EditorialUpdate 2:10 Urgency 2:12 SubjectReference 2:15 Category 2:20 SupplementalCategory 2:22 FixtureIdentifier
2:25 Keywords 2:26 ContentLocationCode 2:27 ContentLocationName 2:30 ReleaseDate 2:35 ReleaseTime 2:37 ExpirationDate
2:38 ExpirationTime 2:40 SpecialInstructions 2:42 ActionAdvised 2:45 ReferenceService 2:47 ReferenceDate
2:50 ReferenceNumber 2:55 DateCreated 2:60 TimeCreated 2:62 DigitalCreationDate 2:63 DigitalCreationTime
2:65 OriginatingProgram 2:70 ProgramVersion 2:75 ObjectCycle 2:80 By-line 2:85 By-lineTitle 2:90 City 2:92 Sublocation
2:95 ProvinceState 2:100 CountryPrimaryLocationCode 2:101 CountryPrimaryLocationName
2:103 OriginalTransmissionReference 2:105 Headline 2:110 Credit 2:115 Source 2:116 CopyrightNotice 2:118 Contact
2:120 CaptionAbstract 2:122 WriterEditor 2:125 RasterizedCaption 2:130 ImageType 2:131 ImageOrientation
2:135 LanguageIdentifier 2:150 AudioType 2:151 AudioSamplingRate 2:152 AudioSamplingResolution 2:153 AudioDuration
2:154 AudioOutcue 2:200 ObjectDataPreviewFileFormat 2:201 ObjectDataPreviewFileFormatVersion 2:202 ObjectDataPreviewData
"""
)

TABLES = {
    "main": (_TIFF, _EXIF),
    "thumb": (_TIFF, _EXIF),
    "exif": (_EXIF, _TIFF),
    "gps": (_GPS,),
    "interop": (_INTEROP,),
    "iptc": (_IIM,),
}


def name_of(where: str, key: str) -> str:
    """The name of the tag `key` in the directory `where`, or its number if it has no name.

    >>> name_of("main", "010f"), name_of("gps", "0002"), name_of("iptc", "2:25"), name_of("main", "fe01")
    ('Make', 'GPSLatitude', 'Keywords', 'Tag fe01')
    """
    if where == "xmp":
        return key  # which is a name
    for table in TABLES.get(where, ()):
        if key in table:
            return table[key]
    return {"jpeg": "JPEG thumbnail", "strip": "Strip"}.get(key, f"{'DataSet' if ':' in key else 'Tag'} {key}")


# Names of fields as ExifTool has them, with its groups: `IFD0:Artist`, `ExifIFD:ISO`, `IPTC:Keywords`, `XMP-dc:title`.
#
# A property of XMP keeps its own spelling, in which ExifTool finds it too (it ignores the case of names).

_GROUPS = {"main": "IFD0", "exif": "ExifIFD", "gps": "GPS", "interop": "InteropIFD", "thumb": "IFD1", "iptc": "IPTC"}

# Where ExifTool's name isn't the standard's
_WORDS = """
NewSubfileType SubfileType SubfileType OldSubfileType ImageLength ImageHeight Threshholding Thresholding DateTime ModifyDate
NumberOfInks NumberofInks JPEGInterchangeFormat ThumbnailOffset JPEGInterchangeFormatLength ThumbnailLength XMP ApplicationNotes
IPTC IPTC-NAA PrintImageMatching PrintIM PhotographicSensitivity ISO OECF Opto-ElectricConvFactor DateTimeDigitized CreateDate
ExposureBiasValue ExposureCompensation Temperature AmbientTemperature PixelXDimension ExifImageWidth PixelYDimension ExifImageHeight
FocalLengthIn35mmFilm FocalLengthIn35mmFormat CameraOwnerName OwnerName BodySerialNumber SerialNumber LensSpecification LensInfo
SourceImageNumberOfCompositeImage CompositeImageCount SourceExposureTimesOfCompositeImage CompositeImageExposureTimes
InteroperabilityIndex InteropIndex InteroperabilityVersion InteropVersion RelatedImageLength RelatedImageHeight
ModelVersion EnvelopeRecordVersion FileFormatVersion FileVersion UNO UniqueObjectName RecordVersion ApplicationRecordVersion
SupplementalCategory SupplementalCategories Sublocation Sub-location ProvinceState Province-State
CountryPrimaryLocationCode Country-PrimaryLocationCode CountryPrimaryLocationName Country-PrimaryLocationName
CaptionAbstract Caption-Abstract WriterEditor Writer-Editor ObjectDataPreviewFileFormat ObjectPreviewFileFormat
ObjectDataPreviewFileFormatVersion ObjectPreviewFileVersion ObjectDataPreviewData ObjectPreviewData
""".split()
_NAMES = dict(zip(_WORDS[0::2], _WORDS[1::2]))
_PICTURES = {"jpeg": "ThumbnailImage", "strip": "ThumbnailTIFF"}


def plain_name(where: str, key: str) -> str:
    """The name of a field without its group.

    >>> plain_name("main", "013b"), plain_name("exif", "8827"), plain_name("iptc", "2:120"), plain_name("main", "fe01")
    ('Artist', 'ISO', 'Caption-Abstract', '0xfe01')
    """
    name = name_of(where, key)
    if where == "xmp" or key in _PICTURES:
        return _PICTURES.get(key, key)
    return _NAMES.get(name, f"0x{key}" if name.startswith("Tag ") else name.replace("DataSet ", ""))


def group_name(where: str, key: str) -> str:
    """The name of a field with its group.

    >>> group_name("main", "013b"), group_name("xmp", "dc:title"), group_name("xmp", "<http://x/title>")
    ('IFD0:Artist', 'XMP-dc:title', 'XMP:<http://x/title>')
    """
    return _cached(where, key)[0] if len(key) <= CACHED else _made(where, key)[0]


def spellings(where: str, key: str) -> tuple[str, ...]:
    """What a field is found by, in small letters: its name with its group and without, and what identifies it in its directory.

    >>> sorted(spellings("main", "013b"))
    ['0x013b', 'artist', 'ifd0:artist']
    """
    return _cached(where, key)[1] if len(key) <= CACHED else _made(where, key)[1]


def _made(where: str, key: str) -> tuple[str, tuple[str, ...]]:
    if where == "xmp":
        name = f"XMP:{key}" if key.startswith("<") else f"XMP-{key}"
    else:
        name = f"{group_of(where)}:{plain_name(where, key)}"
    folded = name.casefold()
    return name, tuple({folded, folded.partition(":")[2], exact_key(where, key).casefold()})


_cached = functools.lru_cache(maxsize=4096)(_made)


def group_of(where: str) -> str:
    """The group of a directory's fields: `IFD0`, `GPS`, `IPTC`, `XMP`."""
    return "XMP" if where == "xmp" else _GROUPS.get(where, where)


def exact_key(where: str, key: str) -> str:
    """What identifies a field in its directory, whatever its name is: the number of its tag or DataSet, or its property.

    >>> exact_key("main", "013b"), exact_key("iptc", "2:120"), exact_key("xmp", "dc:title"), exact_key("thumb", "jpeg")
    ('0x013b', '2:120', 'dc:title', 'jpeg')
    """
    return f"0x{key}" if where != "xmp" and re.fullmatch("[0-9a-f]{4}", key) else key
