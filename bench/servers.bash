# shellcheck shell=bash
# The servers that bench/run compares with, each started where it is installed, in the folder that bench/run works in, and stopped.
# shellcheck disable=SC2154 # That folder is bench/run's.

# pass_over NAME WHY
pass_over() {
    echo "bench/run: $1 is passed over: $2" >&2
}

# as_server COMMAND..: PostgreSQL's server does not run as root, who is the user postgres for it.
as_server() {
    if [ "$(id -u)" -eq 0 ]; then
        (cd / && exec runuser -u postgres -- "$@")
    else
        "$@"
    fi
}

# Its data lie in a folder, its socket too, and no port is open. What a crash loses is not kept, and one process works for a query.
start_postgresql() {
    postgresql_bin=$(find /usr/lib/postgresql -maxdepth 2 -name bin 2> /dev/null | sort -V | tail -n 1)
    if [ ! -x "$postgresql_bin/initdb" ] || ! command -v psql > /dev/null; then
        pass_over PostgreSQL "it is not installed"
        return
    fi
    if [ "$(id -u)" -eq 0 ] && ! id postgres > /dev/null 2>&1; then
        pass_over PostgreSQL "its server does not run as root, and there is no user postgres"
        return
    fi
    postgresql=$folder/postgresql
    mkdir "$postgresql"
    chmod 711 "$folder"
    [ "$(id -u)" -ne 0 ] || chown postgres "$postgresql"
    local options="-k $postgresql -c listen_addresses='' -c fsync=off -c autovacuum=off"
    options+=" -c work_mem=256MB -c max_parallel_workers_per_gather=0"
    if ! { as_server "$postgresql_bin/initdb" -D "$postgresql/data" -A trust -U bench -N --locale=C &&
        as_server "$postgresql_bin/pg_ctl" -D "$postgresql/data" -w -l "$postgresql/log" -o "$options" start; } > postgresql.start 2>&1; then
        pass_over PostgreSQL "its server does not start: $(tail -n 1 postgresql.start)"
        postgresql=
    fi
}

# The settings of a ClickHouse server with one thread, which listens to this machine alone.
clickhouse_settings() {
    mkdir -p "$clickhouse/data" "$clickhouse/tmp"
    cat > "$clickhouse/config.xml" << END
<yandex>
    <logger><level>error</level><log>$clickhouse/log</log><errorlog>$clickhouse/errors</errorlog></logger>
    <tcp_port>$clickhouse_port</tcp_port><listen_host>127.0.0.1</listen_host>
    <path>$clickhouse/data/</path><tmp_path>$clickhouse/tmp/</tmp_path><users_config>$clickhouse/users.xml</users_config>
    <default_profile>default</default_profile><default_database>default</default_database>
    <mark_cache_size>5368709120</mark_cache_size>
</yandex>
END
    cat > "$clickhouse/users.xml" << END
<yandex>
    <profiles><default><max_threads>1</max_threads></default></profiles>
    <users><default>
        <password></password><networks><ip>127.0.0.1</ip></networks><profile>default</profile><quota>default</quota>
    </default></users>
    <quotas><default></default></quotas>
</yandex>
END
}

start_clickhouse() {
    if ! command -v clickhouse-server > /dev/null || ! command -v clickhouse-client > /dev/null; then
        pass_over ClickHouse "it is not installed"
        return
    fi
    local clickhouse=$folder/clickhouse
    clickhouse_port=${CLICKHOUSE_PORT:-19000}
    clickhouse_settings
    clickhouse-server --config-file="$clickhouse/config.xml" > "$clickhouse/out" 2>&1 &
    clickhouse_pid=$!
    for ((tries = 0; tries < 40; tries++)); do
        sleep 0.5
        kill -0 "$clickhouse_pid" 2> /dev/null || break
        ! clickhouse-client --port "$clickhouse_port" -q 'SELECT 1' > /dev/null 2>&1 || return 0
    done
    pass_over ClickHouse "its server does not start"
    stop_clickhouse
}

stop_clickhouse() {
    [ -n "${clickhouse_pid:-}" ] || return 0
    kill "$clickhouse_pid" 2> /dev/null || true
    wait "$clickhouse_pid" 2> /dev/null || true
    clickhouse_pid=
}

stop_postgresql() {
    [ -n "${postgresql:-}" ] || return 0
    as_server "$postgresql_bin/pg_ctl" -D "$postgresql/data" -m immediate -w stop > /dev/null || true
    postgresql=
}
