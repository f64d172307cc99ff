"""The fields of each label, by the names of ExifTool's tags."""

# By the IPTC Photo Metadata Standard (mapping of IIM and XMP), the guidelines of the Metadata Working Group, and Windows' own tags
FIELDS = {
    "creator": ["IFD0:Artist", "IPTC:By-line", "XMP-dc:Creator", "XMP-tiff:Artist", "IFD0:XPAuthor"],
    "caption": ["IFD0:ImageDescription", "IPTC:Caption-Abstract", "XMP-dc:Description"],
    "title": ["IPTC:ObjectName", "XMP-dc:Title", "IFD0:XPTitle"],
    "copyright": ["IFD0:Copyright", "IPTC:CopyrightNotice", "XMP-dc:Rights"],
    "keywords": ["IPTC:Keywords", "XMP-dc:Subject", "IFD0:XPKeywords"],
    "credit": ["IPTC:Credit", "XMP-photoshop:Credit"],
    "headline": ["IPTC:Headline", "XMP-photoshop:Headline"],
    "creator's job": ["IPTC:By-lineTitle", "XMP-photoshop:AuthorsPosition"],
    "date created": ["ExifIFD:DateTimeOriginal", "XMP-photoshop:DateCreated"],
    "source": ["IPTC:Source", "XMP-photoshop:Source"],
    "job identifier": ["IPTC:OriginalTransmissionReference", "XMP-photoshop:TransmissionReference"],
    "location": ["IPTC:Sub-location", "XMP-iptcCore:Location"],
    "city": ["IPTC:City", "XMP-photoshop:City"],
    "state": ["IPTC:Province-State", "XMP-photoshop:State"],
    "country": ["IPTC:Country-PrimaryLocationName", "XMP-photoshop:Country"],
    "instructions": ["IPTC:SpecialInstructions", "XMP-photoshop:Instructions"],
    "usage terms": ["XMP-xmpRights:UsageTerms"],
    "comment": ["ExifIFD:UserComment"],
    "serial": ["ExifIFD:SerialNumber", "ExifIFD:LensSerialNumber", "XMP-aux:SerialNumber", "XMP-exifEX:LensSerialNumber"],
    "owner": ["ExifIFD:OwnerName", "XMP-aux:OwnerName", "XMP-exifEX:OwnerName"],
    "rights end": ["IPTC:ExpirationDate", "XMP-plus:LicenseEndDate"],
    "embargo": ["IPTC:ReleaseDate"],
    "digital source": ["XMP-iptcExt:DigitalSourceType"],
    "person shown": ["XMP-iptcExt:PersonInImage"],
    "data mining": [],  # which the ExifTool of Debian 12 can't write
    "position": ["GPS:GPSLatitude", "XMP-exif:GPSLongitude"],
}
