-- What came. The number of an item stands in one transaction with what was done with it. Here that is the row itself.
-- An application that does its work in this database does it in that transaction, and needs no wsrm_inbox.
create table if not exists wsrm_cursor (node bigint, seq bigint, number bigint not null, primary key (node, seq));
create table if not exists wsrm_inbox (node bigint, seq bigint, number bigint, payload bytea not null,
    primary key (node, seq, number));

-- What is to go. The application inserts rows in the transaction of its own work. Where the order of a partner's rows
-- matters, it does so under a lock of the partner, since ids are no order of commits. The bridge notes the sequence and
-- the number of a row before it sends it, and `sent` once the node has it on its disk. A row that the node refuses for
-- good says so in `refused`, and holds up its partner until somebody mends or deletes it. Delete the
-- oldest sent rows, and leave the last one of each partner: by that one the bridge sees that the node went back.
create table if not exists wsrm_outbox (id bigserial primary key, node bigint not null, partner text not null,
    payload bytea not null, seq bigint, number bigint, sent boolean not null default false, refused text);
create index if not exists wsrm_outbox_due on wsrm_outbox (node, partner, id) where not sent;
