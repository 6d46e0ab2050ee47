-- The desk's questions, with its answers at the moment of the tables. The types refuse what the desk calls malformed.
CREATE DOMAIN desk.isbn AS text COLLATE "C" NOT NULL CHECK (VALUE ~ '^[0-9]{13}$');
CREATE DOMAIN desk.day AS date NOT NULL CHECK (VALUE BETWEEN '0001-01-01' AND '9999-12-31');
CREATE DOMAIN desk.country AS text COLLATE "C" NOT NULL CHECK (VALUE ~ '^[A-Z]{2}$');
CREATE DOMAIN desk.currency AS text COLLATE "C" NOT NULL CHECK (VALUE ~ '^[A-Z]{3}$');
CREATE DOMAIN desk.code AS text COLLATE "C" NOT NULL CHECK (VALUE ~ '^[0-9]{2}$');
CREATE DOMAIN desk.name AS text COLLATE "C" NOT NULL CHECK (VALUE ~ '^[a-z0-9-]{1,32}$');
CREATE DOMAIN desk.quantity AS integer NOT NULL CHECK (VALUE BETWEEN 1 AND 999999);

-- Whether a territory has a country.
CREATE FUNCTION desk.has_country(included text, world bigint, excluded text, country text) RETURNS boolean
LANGUAGE sql IMMUTABLE PARALLEL SAFE AS $$
    SELECT (world = 1 OR country = ANY (string_to_array(included, ' ')))
        AND NOT country = ANY (string_to_array(excluded, ' '))
$$;

-- Refuses a question of a transaction that began before these tables, which would find nothing in them.
CREATE FUNCTION desk.be_seen() RETURNS void
LANGUAGE plpgsql STABLE PARALLEL SAFE AS $$
BEGIN
    PERFORM FROM desk.moment;
    IF NOT FOUND THEN
        RAISE EXCEPTION 'the tables of schema desk are newer than this transaction' USING ERRCODE = '40001';
    END IF;
END
$$;

-- Each offer of an article, with its current price in thousandths: of those prices that hold the one with the greatest
-- minimum, then the one that began last, then the cheapest.
CREATE FUNCTION desk.offers(isbn text, day bigint, country text, currency text, type text, quantity bigint)
RETURNS TABLE (series text, reference text, place bigint, availability text, thousandths bigint)
LANGUAGE plpgsql STABLE PARALLEL SAFE ROWS 4 AS $$
#variable_conflict use_column
BEGIN
    PERFORM desk.be_seen();
    RETURN QUERY
    SELECT o.series, o.reference, o.place, o.availability, current.amount
    FROM (
        SELECT DISTINCT a.series, a.reference FROM desk.article a
        WHERE a.id_value = offers.isbn AND a.id_type IN ('03', '15')
    ) r
    JOIN desk.offer o ON o.series = r.series AND o.reference = r.reference
    LEFT JOIN LATERAL (
        SELECT p.amount
        FROM desk.price p
        LEFT JOIN desk.price_minimum m USING (series, reference, place, price_place)
        WHERE p.series = o.series AND p.reference = o.reference AND p.place = o.place
            AND p.price_type = offers.type AND p.currency = offers.currency
            AND desk.has_country(o.included, o.world, o.excluded, offers.country)
            AND desk.has_country(p.included, p.world, p.excluded, offers.country)
            AND coalesce(p.from_day <= offers.day, true) AND coalesce(p.until_day >= offers.day, true)
            AND coalesce(m.minimum, 1) <= offers.quantity
        ORDER BY coalesce(m.minimum, 1) DESC, p.from_day DESC NULLS LAST, p.amount
        LIMIT 1
    ) current ON true;
END
$$;

-- What each offer of an article costs on a day; no amount if no price holds.
CREATE FUNCTION desk.prices(
    isbn desk.isbn, day desk.day, country desk.country, currency desk.currency, type desk.code,
    quantity desk.quantity DEFAULT 1
) RETURNS TABLE (series text, reference text, place bigint, availability text, amount numeric)
LANGUAGE plpgsql STABLE PARALLEL SAFE ROWS 4 AS $$
#variable_conflict use_column
BEGIN
    RETURN QUERY
    SELECT o.series, o.reference, o.place, o.availability, (o.thousandths / 1000.0)::numeric(12, 3)
    FROM desk.offers(prices.isbn, prices.day - date '1970-01-01', prices.country, prices.currency, prices.type,
        prices.quantity) o
    ORDER BY o.series, o.reference, o.place;
END
$$;

-- The offer that the precedence table chooses; no row if it chooses none.
CREATE FUNCTION desk.choice(
    isbn desk.isbn, day desk.day, country desk.country, currency desk.currency, type desk.code,
    quantity desk.quantity DEFAULT 1
) RETURNS TABLE (rule bigint, series text, reference text, place bigint, availability text, amount numeric)
LANGUAGE plpgsql STABLE PARALLEL SAFE ROWS 1 AS $$
#variable_conflict use_column
BEGIN
    RETURN QUERY
    SELECT r.rule, o.series, o.reference, o.place, o.availability, (o.thousandths / 1000.0)::numeric(12, 3)
    FROM desk.offers(choice.isbn, choice.day - date '1970-01-01', choice.country, choice.currency, choice.type,
        choice.quantity) o
    JOIN desk.rule r ON (r.series = '*' OR r.series = o.series) AND o.availability = ANY (r.codes)
        AND coalesce(o.thousandths <= r.greatest, true)
    WHERE o.thousandths IS NOT NULL
    ORDER BY r.rule, o.thousandths, o.series, o.reference, o.place
    LIMIT 1;
END
$$;

-- What each offer of an article costs in a range of days, as spans of days with one price.
CREATE FUNCTION desk.calendar(
    isbn desk.isbn, first_day desk.day, last_day desk.day, country desk.country, currency desk.currency,
    type desk.code, quantity desk.quantity DEFAULT 1
) RETURNS TABLE (
    series text, reference text, place bigint, availability text, span_first date, span_last date, amount numeric
)
LANGUAGE plpgsql STABLE PARALLEL SAFE ROWS 8 AS $$
#variable_conflict use_column
DECLARE
    epoch CONSTANT date := '1970-01-01';
    first CONSTANT integer := calendar.first_day - epoch;
    last CONSTANT integer := calendar.last_day - epoch;
BEGIN
    IF last < first OR last - first >= 3660 THEN
        RAISE EXCEPTION 'bad-range' USING ERRCODE = '22023';
    END IF;
    PERFORM desk.be_seen();
    RETURN QUERY
    WITH offered AS (
        SELECT o.* FROM (
            SELECT DISTINCT a.series, a.reference FROM desk.article a
            WHERE a.id_value = calendar.isbn AND a.id_type IN ('03', '15')
        ) r
        JOIN desk.offer o ON o.series = r.series AND o.reference = r.reference
    ), wanted AS MATERIALIZED (
        SELECT p.series, p.reference, p.place, p.amount, p.from_day, p.until_day, coalesce(m.minimum, 1) AS minimum
        FROM offered o
        JOIN desk.price p USING (series, reference, place)
        LEFT JOIN desk.price_minimum m USING (series, reference, place, price_place)
        WHERE p.price_type = calendar.type AND p.currency = calendar.currency
            AND desk.has_country(o.included, o.world, o.excluded, calendar.country)
            AND desk.has_country(p.included, p.world, p.excluded, calendar.country)
            AND coalesce(m.minimum, 1) <= calendar.quantity
    ), breaks AS (
        SELECT o.series, o.reference, o.place, first::bigint AS day FROM offered o
        UNION
        SELECT w.series, w.reference, w.place, b.day
        FROM wanted w CROSS JOIN LATERAL (VALUES (w.from_day), (w.until_day + 1)) b (day)
        WHERE b.day > first AND b.day <= last
    ), priced AS (
        SELECT b.*, (
            SELECT w.amount FROM wanted w
            WHERE w.series = b.series AND w.reference = b.reference AND w.place = b.place
                AND coalesce(w.from_day <= b.day, true) AND coalesce(w.until_day >= b.day, true)
            ORDER BY w.minimum DESC, w.from_day DESC NULLS LAST, w.amount
            LIMIT 1
        ) AS thousandths
        FROM breaks b
    ), compared AS (
        SELECT p.*, row_number() OVER days = 1 OR p.thousandths IS DISTINCT FROM lag(p.thousandths) OVER days AS begins
        FROM priced p
        WINDOW days AS (PARTITION BY p.series, p.reference, p.place ORDER BY p.day)
    )
    SELECT c.series, c.reference, c.place, o.availability, epoch + c.day::integer,
        epoch + (coalesce(lead(c.day) OVER spans - 1, last))::integer, (c.thousandths / 1000.0)::numeric(12, 3)
    FROM compared c
    JOIN desk.offer o ON o.series = c.series AND o.reference = c.reference AND o.place = c.place
    WHERE c.begins
    WINDOW spans AS (PARTITION BY c.series, c.reference, c.place ORDER BY c.day)
    ORDER BY c.series, c.reference, c.place, c.day;
END
$$;

-- The report on a series: its first and next number, the greatest that has something, how many from the next on are
-- held, and the ranges that are missing below them. No row for a series that is not agreed.
CREATE FUNCTION desk.gaps(series desk.name)
RETURNS TABLE (first_number bigint, next_number bigint, greatest_number bigint, held bigint, missing bigint[])
LANGUAGE plpgsql STABLE PARALLEL SAFE ROWS 1 AS $$
#variable_conflict use_column
BEGIN
    PERFORM desk.be_seen();
    RETURN QUERY
    SELECT s.first_number, s.next_number,
        coalesce(h.greatest, CASE WHEN s.next_number > s.first_number THEN s.next_number - 1 END), h.held, h.missing
    FROM desk.series s
    CROSS JOIN LATERAL (
        SELECT count(*) AS held, max(n.number) AS greatest,
            coalesce(array_agg(ARRAY[n.missed, n.number - 1] ORDER BY n.number) FILTER (WHERE n.missed < n.number),
                '{}') AS missing
        FROM (
            SELECT t.number, coalesce(lag(t.number) OVER (ORDER BY t.number) + 1, s.next_number) AS missed
            FROM desk.held t
            WHERE t.series = s.name
        ) n
    ) h
    WHERE s.name = gaps.series;
END
$$;
