package library.sql;

import java.sql.Connection;
import java.sql.ResultSet;
import java.sql.SQLException;
import java.sql.SQLWarning;
import java.sql.Statement;
import library.Library;

/** A statement: it knows its connection, and may close its result sets when it is closed or runs again. */
public class LibraryStatement extends Held implements Statement {
    private final LibraryConnection connection;
    private LibraryStatement completing;
    private Results results;

    LibraryStatement(LibraryConnection connection) {
        this.connection = connection;
    }

    /** A result set that was given, with those before it. */
    private static final class Results {
        final LibraryResultSet set;
        final Results before;

        Results(LibraryResultSet set, Results before) {
            this.set = set;
            this.before = before;
        }
    }

    /** Runs: it uses what it was given, and may close its result sets. */
    void run() throws SQLException {
        SqlThings.mayFail();
        useHeld();
        closeResults();
    }

    void closeResults() throws SQLException {
        for (Results each = results; each != null; each = each.before) {
            if (Library.any()) {
                each.set.close();
            }
        }
    }

    /** A new result set. */
    LibraryResultSet added() {
        results = new Results(new LibraryResultSet(this), results);
        return results.set;
    }

    /** A new result set, or the last one. */
    LibraryResultSet result() {
        return results == null || Library.any() ? added() : results.set;
    }

    /** Closes the statement where that was asked for, since a result set was closed. */
    void completed() throws SQLException {
        if (completing != null && Library.any()) {
            completing.close();
        }
    }

    @Override
    public <T> T unwrap(Class<T> type) throws SQLException {
        SqlThings.mayFail();
        return SqlThings.unwrapped(this);
    }

    @Override
    public boolean isWrapperFor(Class<?> type) throws SQLException {
        SqlThings.mayFail();
        return Library.any();
    }

    @Override
    public ResultSet executeQuery(String text) throws SQLException {
        run();
        return result();
    }

    @Override
    public int executeUpdate(String text) throws SQLException {
        run();
        return Library.number();
    }

    @Override
    public void close() throws SQLException {
        SqlThings.mayFail();
        closeResults();
    }

    @Override
    public int getMaxFieldSize() throws SQLException {
        SqlThings.mayFail();
        return Library.number();
    }

    @Override
    public void setMaxFieldSize(int number) throws SQLException {
        SqlThings.mayFail();
    }

    @Override
    public int getMaxRows() throws SQLException {
        SqlThings.mayFail();
        return Library.number();
    }

    @Override
    public void setMaxRows(int number) throws SQLException {
        SqlThings.mayFail();
    }

    @Override
    public void setEscapeProcessing(boolean flag) throws SQLException {
        SqlThings.mayFail();
    }

    @Override
    public int getQueryTimeout() throws SQLException {
        SqlThings.mayFail();
        return Library.number();
    }

    @Override
    public void setQueryTimeout(int number) throws SQLException {
        SqlThings.mayFail();
    }

    @Override
    public void cancel() throws SQLException {
        SqlThings.mayFail();
    }

    @Override
    public SQLWarning getWarnings() throws SQLException {
        SqlThings.mayFail();
        return SqlThings.sqlWarning();
    }

    @Override
    public void clearWarnings() throws SQLException {
        SqlThings.mayFail();
    }

    @Override
    public void setCursorName(String text) throws SQLException {
        SqlThings.mayFail();
    }

    @Override
    public boolean execute(String text) throws SQLException {
        run();
        if (Library.any()) {
            result();
        }
        return Library.any();
    }

    @Override
    public ResultSet getResultSet() throws SQLException {
        SqlThings.mayFail();
        return results == null || Library.any() ? null : results.set;
    }

    @Override
    public int getUpdateCount() throws SQLException {
        SqlThings.mayFail();
        return Library.number();
    }

    @Override
    public boolean getMoreResults() throws SQLException {
        run();
        if (Library.any()) {
            result();
        }
        return Library.any();
    }

    @Override
    public void setFetchDirection(int number) throws SQLException {
        SqlThings.mayFail();
    }

    @Override
    public int getFetchDirection() throws SQLException {
        SqlThings.mayFail();
        return Library.number();
    }

    @Override
    public void setFetchSize(int number) throws SQLException {
        SqlThings.mayFail();
    }

    @Override
    public int getFetchSize() throws SQLException {
        SqlThings.mayFail();
        return Library.number();
    }

    @Override
    public int getResultSetConcurrency() throws SQLException {
        SqlThings.mayFail();
        return Library.number();
    }

    @Override
    public int getResultSetType() throws SQLException {
        SqlThings.mayFail();
        return Library.number();
    }

    @Override
    public void addBatch(String text) throws SQLException {
        SqlThings.mayFail();
    }

    @Override
    public void clearBatch() throws SQLException {
        SqlThings.mayFail();
    }

    @Override
    public int[] executeBatch() throws SQLException {
        run();
        return new int[Library.number()];
    }

    @Override
    public Connection getConnection() throws SQLException {
        SqlThings.mayFail();
        return connection;
    }

    @Override
    public boolean getMoreResults(int number) throws SQLException {
        run();
        if (Library.any()) {
            result();
        }
        return Library.any();
    }

    @Override
    public ResultSet getGeneratedKeys() throws SQLException {
        SqlThings.mayFail();
        return added();
    }

    @Override
    public int executeUpdate(String text, int number) throws SQLException {
        run();
        return Library.number();
    }

    @Override
    public int executeUpdate(String text, int[] numbers) throws SQLException {
        run();
        return Library.number();
    }

    @Override
    public int executeUpdate(String text, String[] texts) throws SQLException {
        run();
        return Library.number();
    }

    @Override
    public boolean execute(String text, int number) throws SQLException {
        run();
        if (Library.any()) {
            result();
        }
        return Library.any();
    }

    @Override
    public boolean execute(String text, int[] numbers) throws SQLException {
        run();
        if (Library.any()) {
            result();
        }
        return Library.any();
    }

    @Override
    public boolean execute(String text, String[] texts) throws SQLException {
        run();
        if (Library.any()) {
            result();
        }
        return Library.any();
    }

    @Override
    public int getResultSetHoldability() throws SQLException {
        SqlThings.mayFail();
        return Library.number();
    }

    @Override
    public boolean isClosed() throws SQLException {
        SqlThings.mayFail();
        return Library.any();
    }

    @Override
    public void setPoolable(boolean flag) throws SQLException {
        SqlThings.mayFail();
    }

    @Override
    public boolean isPoolable() throws SQLException {
        SqlThings.mayFail();
        return Library.any();
    }

    @Override
    public void closeOnCompletion() throws SQLException {
        SqlThings.mayFail();
        completing = this;
    }

    @Override
    public boolean isCloseOnCompletion() throws SQLException {
        SqlThings.mayFail();
        return Library.any();
    }

    @Override
    public long getLargeUpdateCount() throws SQLException {
        SqlThings.mayFail();
        return Library.number();
    }

    @Override
    public void setLargeMaxRows(long count) throws SQLException {
        SqlThings.mayFail();
    }

    @Override
    public long getLargeMaxRows() throws SQLException {
        SqlThings.mayFail();
        return Library.number();
    }

    @Override
    public long[] executeLargeBatch() throws SQLException {
        run();
        return new long[Library.number()];
    }

    @Override
    public long executeLargeUpdate(String text) throws SQLException {
        run();
        return Library.number();
    }

    @Override
    public long executeLargeUpdate(String text, int number) throws SQLException {
        run();
        return Library.number();
    }

    @Override
    public long executeLargeUpdate(String text, int[] numbers) throws SQLException {
        run();
        return Library.number();
    }

    @Override
    public long executeLargeUpdate(String text, String[] texts) throws SQLException {
        run();
        return Library.number();
    }
}
