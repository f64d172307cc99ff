-- version 12
CREATE TABLE blocks (
    picture INTEGER NOT NULL REFERENCES pictures(id) ON DELETE CASCADE,
    number INTEGER NOT NULL,        -- the order in the file
    kind TEXT NOT NULL,             -- exif, iptc, xmp
    name TEXT NOT NULL,             -- Exif, IPTC, XMP; of further blocks a name of their own
    source TEXT NOT NULL,           -- its position in the file
    extractor TEXT NOT NULL,        -- own, exiftool, exiv2
    status TEXT NOT NULL,           -- accepted, refused, unreadable, too long, failed
    digest TEXT,                    -- SHA-256 of the normal form, or of the statements of XMP; only of an accepted block
    cause TEXT,                     -- of a block that isn't accepted: docs/FORMAT.md, section 5, or a cause of XMP
    place INTEGER,
    length INTEGER NOT NULL,        -- bytes of the block
    octets TEXT NOT NULL,           -- SHA-256 of the block as it is in the file
    repair TEXT,                    -- of a refused block: the steps after which it is accepted, JSON: cause, what was done, what is lost
    repaired TEXT,                  -- SHA-256 of what it means after them
    note INTEGER,                   -- where its MakerNote begins: in the block, or in a TIFF, whose block is laid out anew, in the file
    fields BLOB,                    -- its fields, after repair if it is refused, and those of the blocks after it, a line each: JSON, by zlib if long
    PRIMARY KEY (picture, number)
) WITHOUT ROWID;
CREATE TABLE maker_notes (
    picture INTEGER PRIMARY KEY REFERENCES pictures(id) ON DELETE CASCADE,
    readings BLOB NOT NULL          -- what ExifTool reads of its MakerNotes: JSON, compressed by zlib
);
CREATE TABLE not_read (
    picture INTEGER NOT NULL REFERENCES pictures(id) ON DELETE CASCADE,
    number INTEGER NOT NULL,
    what TEXT NOT NULL,             -- a part of the file that was not read
    digest TEXT NOT NULL,           -- SHA-256 of its bytes; empty: not known
    PRIMARY KEY (picture, number)
) WITHOUT ROWID;
CREATE TABLE pictures (
    id INTEGER PRIMARY KEY,
    path BLOB NOT NULL UNIQUE,      -- absolute, as the file system has it
    root BLOB NOT NULL,             -- the folder that was indexed
    size INTEGER,                   -- bytes
    modified INTEGER,               -- nanoseconds since 1970, in 64 bits
    changed INTEGER,                -- the same of the last change of the file's status (ctime)
    inode INTEGER,
    device INTEGER,                 -- the file system, which identifies a file together with the inode
    type TEXT NOT NULL,             -- the format: JPEG, PNG .., or ExifTool's word
    extractor TEXT NOT NULL,        -- which program extracted the blocks: own, exiftool
    problem TEXT,                   -- why there are no blocks: Vanished, Moved, Unreadable, NoPicture, ToolFailed ..
    detail TEXT NOT NULL,
    exif TEXT,                      -- SHA-256 of what all blocks of a kind mean; empty: no such block; NULL: refused or not known
    iptc TEXT,
    xmp TEXT,
    not_read TEXT,                  -- SHA-256 of what was not read; empty: all was read; NULL: it can't be compared
    other_not_read TEXT,            -- the same without the bytes that only a MakerNote can reach
    other_exif TEXT NOT NULL,       -- BLAKE2b of the fields of Exif without the MakerNotes, after repairs too; empty: there is none
    exif_octets TEXT NOT NULL,      -- SHA-256 of the blocks of a kind as they are in the file; empty if there is none
    iptc_octets TEXT NOT NULL,
    xmp_octets TEXT NOT NULL,
    exif_repaired TEXT,             -- SHA-256 of what the Exif blocks mean after repairs that lose nothing, if one is refused
    maker_notes TEXT NOT NULL,      -- where the MakerNotes begin, which decides what they mean; empty if there is none
    file TEXT NOT NULL,             -- SHA-256 of the whole file, if nothing else of it can be compared; else empty
    coded_picture TEXT,             -- BLAKE2b of the coded picture; empty: not known of this file; NULL: not requested
    beside TEXT,                    -- the rest of the file by name, in lines: BLAKE2b, or lengths without a coded_picture; empty: none; NULL: not known
    damage TEXT NOT NULL,           -- where the file is cut off, or its coded picture is damaged; empty: nowhere, or not known
    sha256 TEXT,                    -- SHA-256 of the whole file; empty: it can't be read; NULL: not requested
    sidecars TEXT NOT NULL,         -- names, sizes, times and inodes of its XMP sidecars; empty if there is none
    run INTEGER NOT NULL REFERENCES runs(id)
);
CREATE INDEX pictures_by_coded_picture ON pictures (coded_picture) WHERE coded_picture != '';
CREATE INDEX pictures_by_content ON pictures (exif, iptc, xmp, not_read) WHERE problem IS NULL;
CREATE INDEX pictures_by_other_exif ON pictures (other_exif) WHERE other_exif != '';
CREATE INDEX pictures_not_whole ON pictures (problem) WHERE problem IS NOT NULL OR other_not_read IS NOT '' OR iptc IS NULL OR xmp IS NULL OR (exif IS NULL AND exif_repaired IS NULL);
CREATE TABLE prepared (
    picture INTEGER NOT NULL        -- the texts of the pictures up to this number are there, and no other picture gets such a number
);
CREATE TABLE runs (
    id INTEGER PRIMARY KEY,
    started TEXT NOT NULL,          -- UTC
    ended TEXT,                     -- missing where the run was stopped
    exifnorm TEXT,                  -- the version of the library that made the digests; it ends with -unproved if that was not proved
    sidecars INTEGER NOT NULL,      -- 1: XMP files beside pictures are blocks of them
    whole INTEGER NOT NULL          -- 1: every byte of a JPEG is read
);
CREATE INDEX short_texts ON texts (label, head, text) WHERE long = 0;
CREATE TABLE texts (
    label TEXT NOT NULL,            -- a label of captions; position, serial, owner, rights end ..; empty: some texts are too many or too long to be kept
    long INTEGER NOT NULL,          -- 1: the head isn't all of the text
    picture INTEGER NOT NULL REFERENCES pictures(id) ON DELETE CASCADE,
    number INTEGER NOT NULL,        -- the order of the texts of a picture
    text TEXT NOT NULL,             -- a text of the picture; those that cameras write by themselves are left out
    head TEXT NOT NULL,             -- the first 40 characters of the text in small letters, composed, with single spaces
    folded TEXT,                    -- all of a longer text so; NULL: it is lower(text)
    PRIMARY KEY (label, long, picture, number)
) WITHOUT ROWID;
CREATE INDEX texts_by_picture ON texts (picture);
