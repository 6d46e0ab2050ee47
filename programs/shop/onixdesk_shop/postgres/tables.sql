-- The desk's tables, with the columns and keys that they have in its file (AgreementRows.antt and RecordRows.antt in
-- crates/desk_tables/specs). Rows come from a copy whose foreign keys hold, so none are tested here. Texts are ordered
-- by their bytes.
CREATE TABLE desk.series (
    name text COLLATE "C" NOT NULL,
    sender_type text COLLATE "C" NOT NULL,
    sender_value text COLLATE "C" NOT NULL,
    addressee_type text COLLATE "C" NOT NULL,
    addressee_value text COLLATE "C" NOT NULL,
    first_number bigint NOT NULL,
    next_number bigint NOT NULL
);
CREATE TABLE desk.held (
    series text COLLATE "C" NOT NULL,
    number bigint NOT NULL,
    contents text COLLATE "C" NOT NULL
);
CREATE TABLE desk.applied (
    series text COLLATE "C" NOT NULL,
    number bigint NOT NULL,
    contents text COLLATE "C" NOT NULL,
    replaced bigint NOT NULL,
    updated bigint NOT NULL,
    deleted bigint NOT NULL,
    unknown bigint NOT NULL,
    ignored bigint NOT NULL
);
CREATE TABLE desk.record (
    series text COLLATE "C" NOT NULL,
    reference text COLLATE "C" NOT NULL
);
CREATE TABLE desk.article (
    series text COLLATE "C" NOT NULL,
    reference text COLLATE "C" NOT NULL,
    id_place bigint NOT NULL,
    id_type text COLLATE "C" NOT NULL,
    id_value text COLLATE "C" NOT NULL
);
CREATE TABLE desk.offer (
    series text COLLATE "C" NOT NULL,
    reference text COLLATE "C" NOT NULL,
    place bigint NOT NULL,
    supply bigint NOT NULL,
    included text COLLATE "C" NOT NULL,
    world bigint NOT NULL,
    excluded text COLLATE "C" NOT NULL,
    role text COLLATE "C" NOT NULL,
    supplier_type text COLLATE "C" NOT NULL,
    supplier_value text COLLATE "C" NOT NULL,
    supplier_name text COLLATE "C" NOT NULL,
    availability text COLLATE "C" NOT NULL,
    unpriced text COLLATE "C" NOT NULL
);
CREATE TABLE desk.price (
    series text COLLATE "C" NOT NULL,
    reference text COLLATE "C" NOT NULL,
    place bigint NOT NULL,
    price_place bigint NOT NULL,
    price_type text COLLATE "C" NOT NULL,
    amount bigint NOT NULL,
    currency text COLLATE "C" NOT NULL,
    included text COLLATE "C" NOT NULL,
    world bigint NOT NULL,
    excluded text COLLATE "C" NOT NULL,
    from_day bigint,
    until_day bigint
);
CREATE TABLE desk.price_minimum (
    series text COLLATE "C" NOT NULL,
    reference text COLLATE "C" NOT NULL,
    place bigint NOT NULL,
    price_place bigint NOT NULL,
    minimum bigint NOT NULL
);

-- The shop's precedence table: rule 1 is the first one.
CREATE TABLE desk.rule (
    rule bigint NOT NULL,
    series text COLLATE "C" NOT NULL,
    codes text[] NOT NULL,
    greatest bigint
);

-- The moment of which all rows here are; one row.
CREATE TABLE desk.moment (
    taken timestamp with time zone NOT NULL
);
