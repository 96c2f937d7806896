package library.sql;

import java.sql.Array;
import java.sql.Blob;
import java.sql.CallableStatement;
import java.sql.Clob;
import java.sql.Connection;
import java.sql.DatabaseMetaData;
import java.sql.NClob;
import java.sql.PreparedStatement;
import java.sql.SQLClientInfoException;
import java.sql.SQLException;
import java.sql.SQLWarning;
import java.sql.SQLXML;
import java.sql.Savepoint;
import java.sql.Statement;
import java.sql.Struct;
import java.util.Map;
import java.util.Properties;
import java.util.concurrent.Executor;
import library.Library;

/** A connection: it may close its statements when it is closed, and their result sets when a transaction ends. */
public final class LibraryConnection implements Connection {
    private Statements statements;
    private LibraryMetaData metaData;
    private Map<String, Class<?>> types;

    /** A statement that was made, with those before it. */
    private static final class Statements {
        final LibraryStatement statement;
        final Statements before;

        Statements(LibraryStatement statement, Statements before) {
            this.statement = statement;
            this.before = before;
        }
    }

    /** Holds a statement. */
    LibraryStatement held(LibraryStatement made) {
        statements = new Statements(made, statements);
        return made;
    }

    private void closeStatements() throws SQLException {
        for (Statements each = statements; each != null; each = each.before) {
            if (Library.any()) {
                each.statement.close();
            }
        }
    }

    private void closeResults() throws SQLException {
        for (Statements each = statements; each != null; each = each.before) {
            each.statement.closeResults();
        }
    }

    @Override
    public <T> T unwrap(Class<T> type) throws SQLException {
        SqlThings.mayFail();
        return SqlThings.unwrapped(this);
    }

    @Override
    public boolean isWrapperFor(Class<?> type) throws SQLException {
        SqlThings.mayFail();
        return Library.any();
    }

    @Override
    public Statement createStatement() throws SQLException {
        SqlThings.mayFail();
        return held(new LibraryStatement(this));
    }

    @Override
    public PreparedStatement prepareStatement(String text) throws SQLException {
        SqlThings.mayFail();
        LibraryPreparedStatement made = new LibraryPreparedStatement(this);
        held(made);
        return made;
    }

    @Override
    public CallableStatement prepareCall(String text) throws SQLException {
        SqlThings.mayFail();
        LibraryCallableStatement made = new LibraryCallableStatement(this);
        held(made);
        return made;
    }

    @Override
    public String nativeSQL(String text) throws SQLException {
        SqlThings.mayFail();
        return Library.any() ? null : Library.text();
    }

    @Override
    public void setAutoCommit(boolean flag) throws SQLException {
        SqlThings.mayFail();
        closeResults();
    }

    @Override
    public boolean getAutoCommit() throws SQLException {
        SqlThings.mayFail();
        return Library.any();
    }

    @Override
    public void commit() throws SQLException {
        SqlThings.mayFail();
        closeResults();
    }

    @Override
    public void rollback() throws SQLException {
        SqlThings.mayFail();
        closeResults();
    }

    @Override
    public void close() throws SQLException {
        SqlThings.mayFail();
        closeStatements();
    }

    @Override
    public boolean isClosed() throws SQLException {
        SqlThings.mayFail();
        return Library.any();
    }

    @Override
    public DatabaseMetaData getMetaData() throws SQLException {
        SqlThings.mayFail();
        if (metaData == null) {
            metaData = new LibraryMetaData(this);
        }
        return metaData;
    }

    @Override
    public void setReadOnly(boolean flag) throws SQLException {
        SqlThings.mayFail();
    }

    @Override
    public boolean isReadOnly() throws SQLException {
        SqlThings.mayFail();
        return Library.any();
    }

    @Override
    public void setCatalog(String text) throws SQLException {
        SqlThings.mayFail();
    }

    @Override
    public String getCatalog() throws SQLException {
        SqlThings.mayFail();
        return Library.any() ? null : Library.text();
    }

    @Override
    public void setTransactionIsolation(int number) throws SQLException {
        SqlThings.mayFail();
    }

    @Override
    public int getTransactionIsolation() throws SQLException {
        SqlThings.mayFail();
        return Library.number();
    }

    @Override
    public SQLWarning getWarnings() throws SQLException {
        SqlThings.mayFail();
        return SqlThings.sqlWarning();
    }

    @Override
    public void clearWarnings() throws SQLException {
        SqlThings.mayFail();
    }

    @Override
    public Statement createStatement(int number, int number2) throws SQLException {
        SqlThings.mayFail();
        return held(new LibraryStatement(this));
    }

    @Override
    public PreparedStatement prepareStatement(String text, int number, int number2) throws SQLException {
        SqlThings.mayFail();
        LibraryPreparedStatement made = new LibraryPreparedStatement(this);
        held(made);
        return made;
    }

    @Override
    public CallableStatement prepareCall(String text, int number, int number2) throws SQLException {
        SqlThings.mayFail();
        LibraryCallableStatement made = new LibraryCallableStatement(this);
        held(made);
        return made;
    }

    @Override
    public Map<String, Class<?>> getTypeMap() throws SQLException {
        SqlThings.mayFail();
        if (types == null) {
            types = SqlThings.map();
        }
        return types;
    }

    @Override
    public void setTypeMap(Map<String, Class<?>> map) throws SQLException {
        SqlThings.mayFail();
        SqlThings.typed();
        types = map;
    }

    @Override
    public void setHoldability(int number) throws SQLException {
        SqlThings.mayFail();
    }

    @Override
    public int getHoldability() throws SQLException {
        SqlThings.mayFail();
        return Library.number();
    }

    @Override
    public Savepoint setSavepoint() throws SQLException {
        SqlThings.mayFail();
        return SqlThings.savepoint();
    }

    @Override
    public Savepoint setSavepoint(String text) throws SQLException {
        SqlThings.mayFail();
        return SqlThings.savepoint();
    }

    @Override
    public void rollback(Savepoint savepoint) throws SQLException {
        SqlThings.mayFail();
        closeResults();
    }

    @Override
    public void releaseSavepoint(Savepoint savepoint) throws SQLException {
        SqlThings.mayFail();
    }

    @Override
    public Statement createStatement(int number, int number2, int number3) throws SQLException {
        SqlThings.mayFail();
        return held(new LibraryStatement(this));
    }

    @Override
    public PreparedStatement prepareStatement(String text, int number, int number2, int number3) throws SQLException {
        SqlThings.mayFail();
        LibraryPreparedStatement made = new LibraryPreparedStatement(this);
        held(made);
        return made;
    }

    @Override
    public CallableStatement prepareCall(String text, int number, int number2, int number3) throws SQLException {
        SqlThings.mayFail();
        LibraryCallableStatement made = new LibraryCallableStatement(this);
        held(made);
        return made;
    }

    @Override
    public PreparedStatement prepareStatement(String text, int number) throws SQLException {
        SqlThings.mayFail();
        LibraryPreparedStatement made = new LibraryPreparedStatement(this);
        held(made);
        return made;
    }

    @Override
    public PreparedStatement prepareStatement(String text, int[] numbers) throws SQLException {
        SqlThings.mayFail();
        LibraryPreparedStatement made = new LibraryPreparedStatement(this);
        held(made);
        return made;
    }

    @Override
    public PreparedStatement prepareStatement(String text, String[] texts) throws SQLException {
        SqlThings.mayFail();
        LibraryPreparedStatement made = new LibraryPreparedStatement(this);
        held(made);
        return made;
    }

    @Override
    public Clob createClob() throws SQLException {
        SqlThings.mayFail();
        return SqlThings.clob();
    }

    @Override
    public Blob createBlob() throws SQLException {
        SqlThings.mayFail();
        return SqlThings.blob();
    }

    @Override
    public NClob createNClob() throws SQLException {
        SqlThings.mayFail();
        return SqlThings.nClob();
    }

    @Override
    public SQLXML createSQLXML() throws SQLException {
        SqlThings.mayFail();
        return SqlThings.sqlXML();
    }

    @Override
    public boolean isValid(int number) throws SQLException {
        SqlThings.mayFail();
        return Library.any();
    }

    @Override
    public void setClientInfo(String text, String text2) throws SQLClientInfoException {
        SqlThings.mayRefuse();
    }

    @Override
    public void setClientInfo(Properties properties) throws SQLClientInfoException {
        SqlThings.mayRefuse();
        properties.getProperty(Library.text());
    }

    @Override
    public String getClientInfo(String text) throws SQLException {
        SqlThings.mayFail();
        return Library.any() ? null : Library.text();
    }

    @Override
    public Properties getClientInfo() throws SQLException {
        SqlThings.mayFail();
        return SqlThings.properties();
    }

    @Override
    public Array createArrayOf(String text, Object[] values) throws SQLException {
        SqlThings.mayFail();
        return new LibraryArray(values);
    }

    @Override
    public Struct createStruct(String text, Object[] values) throws SQLException {
        SqlThings.mayFail();
        return new LibraryStruct(values);
    }

    @Override
    public void setSchema(String text) throws SQLException {
        SqlThings.mayFail();
    }

    @Override
    public String getSchema() throws SQLException {
        SqlThings.mayFail();
        return Library.any() ? null : Library.text();
    }

    @Override
    public void abort(Executor executor) throws SQLException {
        SqlThings.mayFail();
        closeStatements();
    }

    @Override
    public void setNetworkTimeout(Executor executor, int number) throws SQLException {
        SqlThings.mayFail();
    }

    @Override
    public int getNetworkTimeout() throws SQLException {
        SqlThings.mayFail();
        return Library.number();
    }

    /** As that of java.lang.Object. */
    @Override
    public String toString() {
        return Library.text();
    }
}
