-- Only one run works in a database at a time. It changes no schema of somebody else, or of another version.
SET client_encoding = 'UTF8'; SET search_path = pg_catalog; SET client_min_messages = warning; SET lock_timeout = '15min';
SELECT pg_advisory_lock(1684370283); -- "desk" in ASCII
BEGIN;
SELECT count(*) > 0 AS is_there,
    coalesce(bool_and(nspowner = current_user::regrole AND starts_with(comment, 'Kept by desk-follow of onixdesk, ')), true) AS is_ours,
    coalesce(bool_and(comment = :'mark'), true) AS is_of_layout
FROM pg_namespace, coalesce(obj_description(oid, 'pg_namespace'), '') AS comment WHERE nspname = 'desk' \gset
\if :is_ours
\else
DO $$ BEGIN RAISE 'the database has a schema desk that is not desk-follow''s, and it stays as it is'; END $$;
\endif
\if :is_of_layout
\else
DO $$ BEGIN RAISE 'the schema desk is another version''s; DROP SCHEMA desk CASCADE takes it away, and what uses it'; END $$;
\endif
