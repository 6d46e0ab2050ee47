-- What an inbox knows. No row is ever removed; texts alone go, after a time.

CREATE TABLE file (
    id INTEGER PRIMARY KEY,
    digest TEXT NOT NULL,                   -- SHA-256 of its bytes
    taking INTEGER NOT NULL DEFAULT 1,      -- 2, 3 .. where the bytes were taken again under a new number
    name TEXT NOT NULL,                     -- by which it came last
    ending TEXT NOT NULL,                   -- what it is; the store has it as DIGEST and ending
    size INTEGER NOT NULL,
    time INTEGER NOT NULL,                  -- in nanoseconds, never behind its arrival: the order in which files are judged
    seen INTEGER NOT NULL,                  -- in seconds: came last
    state TEXT NOT NULL CHECK (
        state IN ('new', 'quarantined', 'refused', 'posting', 'held', 'applied', 'had', 'rejected', 'replaced')
    ),
    why TEXT NOT NULL DEFAULT '',
    at INTEGER NOT NULL,                    -- in seconds: has this state since
    words TEXT NOT NULL DEFAULT '[]',       -- with which it was converted
    terms BLOB,                             -- and the table of terms, if there was one
    basis TEXT NOT NULL DEFAULT '',         -- settings, terms, agreement and program by which it was judged
    number INTEGER,                         -- the desk's first number of it
    products INTEGER,                       -- none before it was converted
    is_full INTEGER NOT NULL DEFAULT 0,
    not_deleted TEXT NOT NULL DEFAULT '',   -- why it deleted nothing, being full
    titled INTEGER NOT NULL DEFAULT 0,      -- whether its titles were read
    UNIQUE (digest, taking)
) STRICT;
CREATE INDEX file_by_state ON file (state, time, name);

CREATE TABLE message (
    number INTEGER PRIMARY KEY CHECK (number BETWEEN 1 AND 999999999),
    file INTEGER NOT NULL REFERENCES file (id),
    text BLOB,                              -- as it is posted, packed by zlib; none once it is gone
    digest TEXT NOT NULL,                   -- SHA-256 of the text
    deletions INTEGER NOT NULL DEFAULT 0,   -- products at its end that were added to a full file
    state TEXT NOT NULL CHECK (state IN ('ready', 'posted', 'held', 'applied', 'refused', 'returned')),
    answer TEXT NOT NULL DEFAULT '',        -- the desk's last
    at INTEGER NOT NULL,                    -- in seconds: of the answer
    kinds TEXT NOT NULL DEFAULT '[]'        -- types and currencies of its prices
) STRICT;
CREATE INDEX message_by_file ON message (file);

CREATE TABLE reference (
    reference TEXT PRIMARY KEY,
    isbns TEXT NOT NULL,                    -- with a space between them
    number INTEGER NOT NULL,                -- of the applied message that named it last
    deleted INTEGER NOT NULL                -- whether that deleted it
) STRICT, WITHOUT ROWID;
CREATE INDEX reference_by_number ON reference (number);

CREATE TABLE title (
    id INTEGER PRIMARY KEY,                 -- greater than that of each row that was written before
    isbn TEXT NOT NULL UNIQUE,
    number INTEGER NOT NULL,                -- of the applied file that said it last
    at INTEGER NOT NULL,                    -- in seconds: when that was applied
    said TEXT NOT NULL                      -- title, subtitle, contributors, publisher; none if it is deleted
) STRICT;

CREATE TABLE decision (
    id INTEGER PRIMARY KEY,
    at INTEGER NOT NULL,
    what TEXT NOT NULL CHECK (what IN ('let-in', 'refuse', 'dismiss', 'again', 'waive', 'unwaive', 'told', 'well')),
    file INTEGER REFERENCES file (id),
    number INTEGER,
    subject TEXT NOT NULL DEFAULT ''        -- of what was told once, until it is well; of a file that is left
) STRICT;
CREATE INDEX decision_by_subject ON decision (subject);
INSERT INTO decision (at, what, subject) VALUES (unixepoch(), 'well', 'begun');

CREATE TRIGGER a_number_has_one_text BEFORE UPDATE OF file, digest ON message
WHEN old.state IN ('posted', 'held', 'applied') AND (new.file <> old.file OR new.digest <> old.digest)
BEGIN SELECT raise(ABORT, 'a number has one text'); END;

CREATE TRIGGER files_stay BEFORE DELETE ON file BEGIN SELECT raise(ABORT, 'rows stay'); END;
CREATE TRIGGER messages_stay BEFORE DELETE ON message BEGIN SELECT raise(ABORT, 'rows stay'); END;
CREATE TRIGGER references_stay BEFORE DELETE ON reference BEGIN SELECT raise(ABORT, 'rows stay'); END;
CREATE TRIGGER titles_stay BEFORE DELETE ON title BEGIN SELECT raise(ABORT, 'rows stay'); END;
CREATE TRIGGER decisions_stay BEFORE DELETE ON decision BEGIN SELECT raise(ABORT, 'rows stay'); END;
