"""The tables of a journal in PostgreSQL: those of SQLite, by the same names and columns, and which servers there are.
"""
from __future__ import annotations

VERSION = 1  # of the tables
ASKS_FOR_A_PLAN = "line LIKE 'reoptimise %' AND reply <> 'unknown'"
PERIOD = "CAST(substr(line, 12) AS integer)"
TIME = "to_char(to_timestamp({} / 1000.0) AT TIME ZONE 'UTC', 'YYYY-MM-DD\"T\"HH24:MI:SS.MS\"Z\"')"

TABLES = f"""
CREATE TABLE version (version integer NOT NULL);
INSERT INTO version VALUES ({VERSION});

-- A network, with its file byte for byte, and the SHA-256 of the program that answers it from its first line on.
CREATE TABLE network (
    network integer GENERATED ALWAYS AS IDENTITY PRIMARY KEY,
    name text NOT NULL UNIQUE CHECK (name ~ '^[a-z][a-z0-9._-]{{0,39}}$'),
    mode text NOT NULL CHECK (mode IN ('first', 'bid', 'davn')),
    file bytea NOT NULL,
    program text NOT NULL,
    begun bigint NOT NULL,      -- as all times here but `seen`, in milliseconds since 1970 began
    ended bigint,               -- since when it is only looked at; below 0, since when it is frozen
    halted text                 -- why nobody answers for it
);

-- Each start of a server. No time here is part of what keeps rows safe: they only say who tries to take a network.
CREATE TABLE server (
    server integer GENERATED ALWAYS AS IDENTITY PRIMARY KEY,
    name text NOT NULL,
    address text NOT NULL,      -- where desks and other servers reach it, HOST:PORT
    program text NOT NULL,
    began timestamptz NOT NULL DEFAULT clock_timestamp(),
    seen timestamptz NOT NULL DEFAULT clock_timestamp(),    -- its last heartbeat, by the clock of the database
    leaving boolean NOT NULL DEFAULT false
) WITH (fillfactor = 20);

-- Each taking of a network, and by which server.
CREATE TABLE tenure (
    network integer NOT NULL REFERENCES network,
    epoch integer NOT NULL,
    began bigint NOT NULL,
    program text NOT NULL,
    server integer NOT NULL REFERENCES server,
    first bigint NOT NULL,      -- the number of its first line, if it wrote one
    PRIMARY KEY (network, epoch)
);

-- How many lines a network has, and whose it is: who has an older epoch can write nothing.
CREATE TABLE head (
    network integer PRIMARY KEY REFERENCES network,
    lines bigint NOT NULL,
    epoch integer NOT NULL,
    server integer REFERENCES server    -- nobody has it if there is none
) WITH (fillfactor = 20);

-- The lines that may have changed something, with their replies.
CREATE TABLE line (
    number bigint NOT NULL,     -- 1, 2, 3 .. in each network
    sequence bigint NOT NULL,   -- the desk's own number of the line
    at bigint NOT NULL,         -- when it was written, by a clock that may jump: the number tells the order
    network integer NOT NULL,
    epoch integer NOT NULL,
    desk text NOT NULL,
    line text NOT NULL,
    reply text NOT NULL,
    PRIMARY KEY (network, number)
);

CREATE FUNCTION line_stays() RETURNS trigger LANGUAGE plpgsql AS
    $$ BEGIN RAISE EXCEPTION 'a line stays as it is'; END $$;
CREATE TRIGGER line_stays BEFORE UPDATE ON line FOR EACH STATEMENT EXECUTE FUNCTION line_stays();
CREATE TRIGGER line_is_kept BEFORE DELETE OR TRUNCATE ON line FOR EACH STATEMENT EXECUTE FUNCTION line_stays();

-- When the periods of a network begin, as far as that is known; the first began with it.
CREATE TABLE period (
    network integer NOT NULL REFERENCES network,
    period integer NOT NULL,
    begins bigint NOT NULL,
    PRIMARY KEY (network, period)
);

-- When a network departs, if that is known.
CREATE TABLE departure (
    network integer PRIMARY KEY REFERENCES network,
    departs bigint NOT NULL
);

-- The lines that asked for a plan, by their numbers and by their periods.
CREATE INDEX plan_by_number ON line (network, number) WHERE {ASKS_FOR_A_PLAN};
CREATE INDEX plan_by_period ON line (network, ({PERIOD})) WHERE {ASKS_FOR_A_PLAN};

-- What is read: all lines; those that ask for seats; those that give them back.
CREATE VIEW journal AS
    SELECT network.name AS network, number, {TIME.format("at")} AS at, epoch, desk, sequence, line, reply
    FROM line JOIN network USING (network);
CREATE VIEW request AS
    SELECT network, number, at, desk, split_part(line, ' ', 2) AS product,
        CAST(split_part(line, ' ', 3) AS integer) AS party,
        CASE WHEN reply LIKE 'ok %' THEN CAST(substr(reply, 4) AS bigint) END AS booking, reply
    FROM journal WHERE line LIKE 'book %';
CREATE VIEW cancellation AS
    SELECT network, number, at, desk, CAST(substr(line, 8) AS bigint) AS booking,
        CASE WHEN reply LIKE 'cancelled %' THEN CAST(split_part(reply, ' ', 3) AS bigint) END AS amount, reply
    FROM journal WHERE line LIKE 'cancel %';
"""
