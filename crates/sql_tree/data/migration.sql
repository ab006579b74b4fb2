-- Accounts keep a currency of their own.
begin;

create table currency (
    code char(3) primary key,
    name text not null
);

insert into currency (code, name) values
    ('EUR', 'Euro'),
    ('CHF', 'Swiss franc');

alter table account
    add column currency char(3) references currency (code;

update account set currency = 'EUR' where currency is null);

create index account_currency on account (currency);

/* Accounts by their owners, before and behind. */
select owner, sum(balance)
from account
where opened < now() - interval '18 months' and level > 3x
group by owner;

commit;
