-- For bin/try_databases: agg beside a module that has functions of the names of agg's own, loaded before it and behind it.
CREATE EXTENSION agg;
CREATE FUNCTION foreign_open_handles() RETURNS bigint AS :'module', 'foreign_open_handles' LANGUAGE C;
\connect
LOAD :'module';
SELECT agg_query(agg_new('c text', 'select count(*) from batches')), agg_open_handles(), foreign_open_handles();
\connect
SELECT agg_query(agg_new('c text', 'select count(*) from batches')), agg_open_handles();
LOAD :'module';
SELECT agg_query(agg_new('c text', 'select count(*) from batches')), agg_open_handles(), foreign_open_handles();
