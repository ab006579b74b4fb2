begin;

drop table if exists rate;

drop view currency_names;

create table rate (code char(3) not null, rate numeric);

create index rate_code on rate (code);

commit;

create unique index concurrently rate_key on rate (code);
