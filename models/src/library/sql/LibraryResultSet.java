package library.sql;

import java.io.InputStream;
import java.io.Reader;
import java.math.BigDecimal;
import java.net.URL;
import java.sql.Array;
import java.sql.Blob;
import java.sql.Clob;
import java.sql.Date;
import java.sql.NClob;
import java.sql.Ref;
import java.sql.ResultSet;
import java.sql.ResultSetMetaData;
import java.sql.RowId;
import java.sql.SQLException;
import java.sql.SQLType;
import java.sql.SQLWarning;
import java.sql.SQLXML;
import java.sql.Statement;
import java.sql.Time;
import java.sql.Timestamp;
import java.util.Calendar;
import java.util.Map;
import library.Library;

/** A result set: it knows its statement, closes the streams that it gave at the next step, and reads what it is given when a row is written. */
public final class LibraryResultSet extends Held implements ResultSet {
    private final LibraryStatement statement;

    /** A result set of a statement, or of none. */
    public LibraryResultSet(LibraryStatement statement) {
        this.statement = statement;
    }

    @Override
    public <T> T unwrap(Class<T> type) throws SQLException {
        SqlThings.mayFail();
        return SqlThings.unwrapped(this);
    }

    @Override
    public boolean isWrapperFor(Class<?> type) throws SQLException {
        SqlThings.mayFail();
        return Library.any();
    }

    @Override
    public boolean next() throws SQLException {
        step();
        return Library.any();
    }

    @Override
    public void close() throws SQLException {
        SqlThings.mayFail();
        closeStreams();
        if (statement != null) {
            statement.completed();
        }
    }

    @Override
    public boolean wasNull() throws SQLException {
        step();
        return Library.any();
    }

    @Override
    public String getString(int number) throws SQLException {
        step();
        return Library.any() ? null : Library.text();
    }

    @Override
    public boolean getBoolean(int number) throws SQLException {
        step();
        return Library.any();
    }

    @Override
    public byte getByte(int number) throws SQLException {
        step();
        return (byte) Library.number();
    }

    @Override
    public short getShort(int number) throws SQLException {
        step();
        return (short) Library.number();
    }

    @Override
    public int getInt(int number) throws SQLException {
        step();
        return Library.number();
    }

    @Override
    public long getLong(int number) throws SQLException {
        step();
        return Library.number();
    }

    @Override
    public float getFloat(int number) throws SQLException {
        step();
        return Library.number();
    }

    @Override
    public double getDouble(int number) throws SQLException {
        step();
        return Library.number();
    }

    @Override
    public BigDecimal getBigDecimal(int number, int number2) throws SQLException {
        step();
        return SqlThings.bigDecimal();
    }

    @Override
    public byte[] getBytes(int number) throws SQLException {
        step();
        return new byte[Library.number()];
    }

    @Override
    public Date getDate(int number) throws SQLException {
        step();
        return SqlThings.date();
    }

    @Override
    public Time getTime(int number) throws SQLException {
        step();
        return SqlThings.time();
    }

    @Override
    public Timestamp getTimestamp(int number) throws SQLException {
        step();
        return SqlThings.timestamp();
    }

    @Override
    public InputStream getAsciiStream(int number) throws SQLException {
        step();
        return held(SqlThings.inputStream());
    }

    @Override
    public InputStream getUnicodeStream(int number) throws SQLException {
        step();
        return held(SqlThings.inputStream());
    }

    @Override
    public InputStream getBinaryStream(int number) throws SQLException {
        step();
        return held(SqlThings.inputStream());
    }

    @Override
    public String getString(String text) throws SQLException {
        step();
        return Library.any() ? null : Library.text();
    }

    @Override
    public boolean getBoolean(String text) throws SQLException {
        step();
        return Library.any();
    }

    @Override
    public byte getByte(String text) throws SQLException {
        step();
        return (byte) Library.number();
    }

    @Override
    public short getShort(String text) throws SQLException {
        step();
        return (short) Library.number();
    }

    @Override
    public int getInt(String text) throws SQLException {
        step();
        return Library.number();
    }

    @Override
    public long getLong(String text) throws SQLException {
        step();
        return Library.number();
    }

    @Override
    public float getFloat(String text) throws SQLException {
        step();
        return Library.number();
    }

    @Override
    public double getDouble(String text) throws SQLException {
        step();
        return Library.number();
    }

    @Override
    public BigDecimal getBigDecimal(String text, int number) throws SQLException {
        step();
        return SqlThings.bigDecimal();
    }

    @Override
    public byte[] getBytes(String text) throws SQLException {
        step();
        return new byte[Library.number()];
    }

    @Override
    public Date getDate(String text) throws SQLException {
        step();
        return SqlThings.date();
    }

    @Override
    public Time getTime(String text) throws SQLException {
        step();
        return SqlThings.time();
    }

    @Override
    public Timestamp getTimestamp(String text) throws SQLException {
        step();
        return SqlThings.timestamp();
    }

    @Override
    public InputStream getAsciiStream(String text) throws SQLException {
        step();
        return held(SqlThings.inputStream());
    }

    @Override
    public InputStream getUnicodeStream(String text) throws SQLException {
        step();
        return held(SqlThings.inputStream());
    }

    @Override
    public InputStream getBinaryStream(String text) throws SQLException {
        step();
        return held(SqlThings.inputStream());
    }

    @Override
    public SQLWarning getWarnings() throws SQLException {
        step();
        return SqlThings.sqlWarning();
    }

    @Override
    public void clearWarnings() throws SQLException {
        step();
    }

    @Override
    public String getCursorName() throws SQLException {
        step();
        return Library.any() ? null : Library.text();
    }

    @Override
    public ResultSetMetaData getMetaData() throws SQLException {
        step();
        return SqlThings.resultSetMetaData();
    }

    @Override
    public Object getObject(int number) throws SQLException {
        step();
        return picked();
    }

    @Override
    public Object getObject(String text) throws SQLException {
        step();
        return picked();
    }

    @Override
    public int findColumn(String text) throws SQLException {
        step();
        return Library.number();
    }

    @Override
    public Reader getCharacterStream(int number) throws SQLException {
        step();
        return held(SqlThings.reader());
    }

    @Override
    public Reader getCharacterStream(String text) throws SQLException {
        step();
        return held(SqlThings.reader());
    }

    @Override
    public BigDecimal getBigDecimal(int number) throws SQLException {
        step();
        return SqlThings.bigDecimal();
    }

    @Override
    public BigDecimal getBigDecimal(String text) throws SQLException {
        step();
        return SqlThings.bigDecimal();
    }

    @Override
    public boolean isBeforeFirst() throws SQLException {
        step();
        return Library.any();
    }

    @Override
    public boolean isAfterLast() throws SQLException {
        step();
        return Library.any();
    }

    @Override
    public boolean isFirst() throws SQLException {
        step();
        return Library.any();
    }

    @Override
    public boolean isLast() throws SQLException {
        step();
        return Library.any();
    }

    @Override
    public void beforeFirst() throws SQLException {
        step();
    }

    @Override
    public void afterLast() throws SQLException {
        step();
    }

    @Override
    public boolean first() throws SQLException {
        step();
        return Library.any();
    }

    @Override
    public boolean last() throws SQLException {
        step();
        return Library.any();
    }

    @Override
    public int getRow() throws SQLException {
        step();
        return Library.number();
    }

    @Override
    public boolean absolute(int number) throws SQLException {
        step();
        return Library.any();
    }

    @Override
    public boolean relative(int number) throws SQLException {
        step();
        return Library.any();
    }

    @Override
    public boolean previous() throws SQLException {
        step();
        return Library.any();
    }

    @Override
    public void setFetchDirection(int number) throws SQLException {
        step();
    }

    @Override
    public int getFetchDirection() throws SQLException {
        step();
        return Library.number();
    }

    @Override
    public void setFetchSize(int number) throws SQLException {
        step();
    }

    @Override
    public int getFetchSize() throws SQLException {
        step();
        return Library.number();
    }

    @Override
    public int getType() throws SQLException {
        step();
        return Library.number();
    }

    @Override
    public int getConcurrency() throws SQLException {
        step();
        return Library.number();
    }

    @Override
    public boolean rowUpdated() throws SQLException {
        step();
        return Library.any();
    }

    @Override
    public boolean rowInserted() throws SQLException {
        step();
        return Library.any();
    }

    @Override
    public boolean rowDeleted() throws SQLException {
        step();
        return Library.any();
    }

    @Override
    public void updateNull(int number) throws SQLException {
        step();
    }

    @Override
    public void updateBoolean(int number, boolean flag) throws SQLException {
        step();
    }

    @Override
    public void updateByte(int number, byte one) throws SQLException {
        step();
    }

    @Override
    public void updateShort(int number, short small) throws SQLException {
        step();
    }

    @Override
    public void updateInt(int number, int number2) throws SQLException {
        step();
    }

    @Override
    public void updateLong(int number, long count) throws SQLException {
        step();
    }

    @Override
    public void updateFloat(int number, float real) throws SQLException {
        step();
    }

    @Override
    public void updateDouble(int number, double real) throws SQLException {
        step();
    }

    @Override
    public void updateBigDecimal(int number, BigDecimal bigDecimal) throws SQLException {
        step();
        hold(bigDecimal);
    }

    @Override
    public void updateString(int number, String text) throws SQLException {
        step();
    }

    @Override
    public void updateBytes(int number, byte[] bytes) throws SQLException {
        step();
    }

    @Override
    public void updateDate(int number, Date date) throws SQLException {
        step();
        hold(date);
    }

    @Override
    public void updateTime(int number, Time time) throws SQLException {
        step();
        hold(time);
    }

    @Override
    public void updateTimestamp(int number, Timestamp timestamp) throws SQLException {
        step();
        hold(timestamp);
    }

    @Override
    public void updateAsciiStream(int number, InputStream in, int number2) throws SQLException {
        step();
        hold(in);
    }

    @Override
    public void updateBinaryStream(int number, InputStream in, int number2) throws SQLException {
        step();
        hold(in);
    }

    @Override
    public void updateCharacterStream(int number, Reader in, int number2) throws SQLException {
        step();
        hold(in);
    }

    @Override
    public void updateObject(int number, Object value, int number2) throws SQLException {
        step();
        hold(value);
    }

    @Override
    public void updateObject(int number, Object value) throws SQLException {
        step();
        hold(value);
    }

    @Override
    public void updateNull(String text) throws SQLException {
        step();
    }

    @Override
    public void updateBoolean(String text, boolean flag) throws SQLException {
        step();
    }

    @Override
    public void updateByte(String text, byte one) throws SQLException {
        step();
    }

    @Override
    public void updateShort(String text, short small) throws SQLException {
        step();
    }

    @Override
    public void updateInt(String text, int number) throws SQLException {
        step();
    }

    @Override
    public void updateLong(String text, long count) throws SQLException {
        step();
    }

    @Override
    public void updateFloat(String text, float real) throws SQLException {
        step();
    }

    @Override
    public void updateDouble(String text, double real) throws SQLException {
        step();
    }

    @Override
    public void updateBigDecimal(String text, BigDecimal bigDecimal) throws SQLException {
        step();
        hold(bigDecimal);
    }

    @Override
    public void updateString(String text, String text2) throws SQLException {
        step();
    }

    @Override
    public void updateBytes(String text, byte[] bytes) throws SQLException {
        step();
    }

    @Override
    public void updateDate(String text, Date date) throws SQLException {
        step();
        hold(date);
    }

    @Override
    public void updateTime(String text, Time time) throws SQLException {
        step();
        hold(time);
    }

    @Override
    public void updateTimestamp(String text, Timestamp timestamp) throws SQLException {
        step();
        hold(timestamp);
    }

    @Override
    public void updateAsciiStream(String text, InputStream in, int number) throws SQLException {
        step();
        hold(in);
    }

    @Override
    public void updateBinaryStream(String text, InputStream in, int number) throws SQLException {
        step();
        hold(in);
    }

    @Override
    public void updateCharacterStream(String text, Reader in, int number) throws SQLException {
        step();
        hold(in);
    }

    @Override
    public void updateObject(String text, Object value, int number) throws SQLException {
        step();
        hold(value);
    }

    @Override
    public void updateObject(String text, Object value) throws SQLException {
        step();
        hold(value);
    }

    @Override
    public void insertRow() throws SQLException {
        step();
        useHeld();
    }

    @Override
    public void updateRow() throws SQLException {
        step();
        useHeld();
    }

    @Override
    public void deleteRow() throws SQLException {
        step();
    }

    @Override
    public void refreshRow() throws SQLException {
        step();
    }

    @Override
    public void cancelRowUpdates() throws SQLException {
        step();
    }

    @Override
    public void moveToInsertRow() throws SQLException {
        step();
    }

    @Override
    public void moveToCurrentRow() throws SQLException {
        step();
    }

    @Override
    public Statement getStatement() throws SQLException {
        SqlThings.mayFail();
        return statement;
    }

    @Override
    public Object getObject(int number, Map<String, Class<?>> map) throws SQLException {
        step();
        return Library.any() ? picked() : SqlThings.typed();
    }

    @Override
    public Ref getRef(int number) throws SQLException {
        step();
        return SqlThings.ref();
    }

    @Override
    public Blob getBlob(int number) throws SQLException {
        step();
        return SqlThings.blob();
    }

    @Override
    public Clob getClob(int number) throws SQLException {
        step();
        return SqlThings.clob();
    }

    @Override
    public Array getArray(int number) throws SQLException {
        step();
        return SqlThings.array();
    }

    @Override
    public Object getObject(String text, Map<String, Class<?>> map) throws SQLException {
        step();
        return Library.any() ? picked() : SqlThings.typed();
    }

    @Override
    public Ref getRef(String text) throws SQLException {
        step();
        return SqlThings.ref();
    }

    @Override
    public Blob getBlob(String text) throws SQLException {
        step();
        return SqlThings.blob();
    }

    @Override
    public Clob getClob(String text) throws SQLException {
        step();
        return SqlThings.clob();
    }

    @Override
    public Array getArray(String text) throws SQLException {
        step();
        return SqlThings.array();
    }

    @Override
    public Date getDate(int number, Calendar calendar) throws SQLException {
        step();
        hold(calendar);
        return SqlThings.date();
    }

    @Override
    public Date getDate(String text, Calendar calendar) throws SQLException {
        step();
        hold(calendar);
        return SqlThings.date();
    }

    @Override
    public Time getTime(int number, Calendar calendar) throws SQLException {
        step();
        hold(calendar);
        return SqlThings.time();
    }

    @Override
    public Time getTime(String text, Calendar calendar) throws SQLException {
        step();
        hold(calendar);
        return SqlThings.time();
    }

    @Override
    public Timestamp getTimestamp(int number, Calendar calendar) throws SQLException {
        step();
        hold(calendar);
        return SqlThings.timestamp();
    }

    @Override
    public Timestamp getTimestamp(String text, Calendar calendar) throws SQLException {
        step();
        hold(calendar);
        return SqlThings.timestamp();
    }

    @Override
    public URL getURL(int number) throws SQLException {
        step();
        return SqlThings.url();
    }

    @Override
    public URL getURL(String text) throws SQLException {
        step();
        return SqlThings.url();
    }

    @Override
    public void updateRef(int number, Ref ref) throws SQLException {
        step();
        hold(ref);
    }

    @Override
    public void updateRef(String text, Ref ref) throws SQLException {
        step();
        hold(ref);
    }

    @Override
    public void updateBlob(int number, Blob blob) throws SQLException {
        step();
        hold(blob);
    }

    @Override
    public void updateBlob(String text, Blob blob) throws SQLException {
        step();
        hold(blob);
    }

    @Override
    public void updateClob(int number, Clob clob) throws SQLException {
        step();
        hold(clob);
    }

    @Override
    public void updateClob(String text, Clob clob) throws SQLException {
        step();
        hold(clob);
    }

    @Override
    public void updateArray(int number, Array array) throws SQLException {
        step();
        hold(array);
    }

    @Override
    public void updateArray(String text, Array array) throws SQLException {
        step();
        hold(array);
    }

    @Override
    public RowId getRowId(int number) throws SQLException {
        step();
        return SqlThings.rowId();
    }

    @Override
    public RowId getRowId(String text) throws SQLException {
        step();
        return SqlThings.rowId();
    }

    @Override
    public void updateRowId(int number, RowId rowId) throws SQLException {
        step();
        hold(rowId);
    }

    @Override
    public void updateRowId(String text, RowId rowId) throws SQLException {
        step();
        hold(rowId);
    }

    @Override
    public int getHoldability() throws SQLException {
        step();
        return Library.number();
    }

    @Override
    public boolean isClosed() throws SQLException {
        step();
        return Library.any();
    }

    @Override
    public void updateNString(int number, String text) throws SQLException {
        step();
    }

    @Override
    public void updateNString(String text, String text2) throws SQLException {
        step();
    }

    @Override
    public void updateNClob(int number, NClob clob) throws SQLException {
        step();
        hold(clob);
    }

    @Override
    public void updateNClob(String text, NClob clob) throws SQLException {
        step();
        hold(clob);
    }

    @Override
    public NClob getNClob(int number) throws SQLException {
        step();
        return SqlThings.nClob();
    }

    @Override
    public NClob getNClob(String text) throws SQLException {
        step();
        return SqlThings.nClob();
    }

    @Override
    public SQLXML getSQLXML(int number) throws SQLException {
        step();
        return SqlThings.sqlXML();
    }

    @Override
    public SQLXML getSQLXML(String text) throws SQLException {
        step();
        return SqlThings.sqlXML();
    }

    @Override
    public void updateSQLXML(int number, SQLXML xml) throws SQLException {
        step();
        hold(xml);
    }

    @Override
    public void updateSQLXML(String text, SQLXML xml) throws SQLException {
        step();
        hold(xml);
    }

    @Override
    public String getNString(int number) throws SQLException {
        step();
        return Library.any() ? null : Library.text();
    }

    @Override
    public String getNString(String text) throws SQLException {
        step();
        return Library.any() ? null : Library.text();
    }

    @Override
    public Reader getNCharacterStream(int number) throws SQLException {
        step();
        return held(SqlThings.reader());
    }

    @Override
    public Reader getNCharacterStream(String text) throws SQLException {
        step();
        return held(SqlThings.reader());
    }

    @Override
    public void updateNCharacterStream(int number, Reader in, long count) throws SQLException {
        step();
        hold(in);
    }

    @Override
    public void updateNCharacterStream(String text, Reader in, long count) throws SQLException {
        step();
        hold(in);
    }

    @Override
    public void updateAsciiStream(int number, InputStream in, long count) throws SQLException {
        step();
        hold(in);
    }

    @Override
    public void updateBinaryStream(int number, InputStream in, long count) throws SQLException {
        step();
        hold(in);
    }

    @Override
    public void updateCharacterStream(int number, Reader in, long count) throws SQLException {
        step();
        hold(in);
    }

    @Override
    public void updateAsciiStream(String text, InputStream in, long count) throws SQLException {
        step();
        hold(in);
    }

    @Override
    public void updateBinaryStream(String text, InputStream in, long count) throws SQLException {
        step();
        hold(in);
    }

    @Override
    public void updateCharacterStream(String text, Reader in, long count) throws SQLException {
        step();
        hold(in);
    }

    @Override
    public void updateBlob(int number, InputStream in, long count) throws SQLException {
        step();
        hold(in);
    }

    @Override
    public void updateBlob(String text, InputStream in, long count) throws SQLException {
        step();
        hold(in);
    }

    @Override
    public void updateClob(int number, Reader in, long count) throws SQLException {
        step();
        hold(in);
    }

    @Override
    public void updateClob(String text, Reader in, long count) throws SQLException {
        step();
        hold(in);
    }

    @Override
    public void updateNClob(int number, Reader in, long count) throws SQLException {
        step();
        hold(in);
    }

    @Override
    public void updateNClob(String text, Reader in, long count) throws SQLException {
        step();
        hold(in);
    }

    @Override
    public void updateNCharacterStream(int number, Reader in) throws SQLException {
        step();
        hold(in);
    }

    @Override
    public void updateNCharacterStream(String text, Reader in) throws SQLException {
        step();
        hold(in);
    }

    @Override
    public void updateAsciiStream(int number, InputStream in) throws SQLException {
        step();
        hold(in);
    }

    @Override
    public void updateBinaryStream(int number, InputStream in) throws SQLException {
        step();
        hold(in);
    }

    @Override
    public void updateCharacterStream(int number, Reader in) throws SQLException {
        step();
        hold(in);
    }

    @Override
    public void updateAsciiStream(String text, InputStream in) throws SQLException {
        step();
        hold(in);
    }

    @Override
    public void updateBinaryStream(String text, InputStream in) throws SQLException {
        step();
        hold(in);
    }

    @Override
    public void updateCharacterStream(String text, Reader in) throws SQLException {
        step();
        hold(in);
    }

    @Override
    public void updateBlob(int number, InputStream in) throws SQLException {
        step();
        hold(in);
    }

    @Override
    public void updateBlob(String text, InputStream in) throws SQLException {
        step();
        hold(in);
    }

    @Override
    public void updateClob(int number, Reader in) throws SQLException {
        step();
        hold(in);
    }

    @Override
    public void updateClob(String text, Reader in) throws SQLException {
        step();
        hold(in);
    }

    @Override
    public void updateNClob(int number, Reader in) throws SQLException {
        step();
        hold(in);
    }

    @Override
    public void updateNClob(String text, Reader in) throws SQLException {
        step();
        hold(in);
    }

    @Override
    public <T> T getObject(int number, Class<T> type) throws SQLException {
        step();
        return SqlThings.unwrapped(picked());
    }

    @Override
    public <T> T getObject(String text, Class<T> type) throws SQLException {
        step();
        return SqlThings.unwrapped(picked());
    }

    @Override
    public void updateObject(int number, Object value, SQLType kind, int number2) throws SQLException {
        step();
        hold(value);
    }

    @Override
    public void updateObject(String text, Object value, SQLType kind, int number) throws SQLException {
        step();
        hold(value);
    }

    @Override
    public void updateObject(int number, Object value, SQLType kind) throws SQLException {
        step();
        hold(value);
    }

    @Override
    public void updateObject(String text, Object value, SQLType kind) throws SQLException {
        step();
        hold(value);
    }
}
