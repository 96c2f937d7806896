package library.sql;

import java.io.InputStream;
import java.io.Reader;
import java.math.BigDecimal;
import java.net.URL;
import java.sql.Array;
import java.sql.Blob;
import java.sql.CallableStatement;
import java.sql.Clob;
import java.sql.Date;
import java.sql.NClob;
import java.sql.Ref;
import java.sql.RowId;
import java.sql.SQLException;
import java.sql.SQLType;
import java.sql.SQLXML;
import java.sql.Time;
import java.sql.Timestamp;
import java.util.Calendar;
import java.util.Map;
import library.Library;

/** A call of a procedure, whose results may be result sets. */
public final class LibraryCallableStatement extends LibraryPreparedStatement implements CallableStatement {
    LibraryCallableStatement(LibraryConnection connection) {
        super(connection);
    }

    @Override
    public void registerOutParameter(int number, int number2) throws SQLException {
        step();
    }

    @Override
    public void registerOutParameter(int number, int number2, int number3) throws SQLException {
        step();
    }

    @Override
    public boolean wasNull() throws SQLException {
        step();
        return Library.any();
    }

    @Override
    public String getString(int number) throws SQLException {
        step();
        return Library.any() ? null : Library.text();
    }

    @Override
    public boolean getBoolean(int number) throws SQLException {
        step();
        return Library.any();
    }

    @Override
    public byte getByte(int number) throws SQLException {
        step();
        return (byte) Library.number();
    }

    @Override
    public short getShort(int number) throws SQLException {
        step();
        return (short) Library.number();
    }

    @Override
    public int getInt(int number) throws SQLException {
        step();
        return Library.number();
    }

    @Override
    public long getLong(int number) throws SQLException {
        step();
        return Library.number();
    }

    @Override
    public float getFloat(int number) throws SQLException {
        step();
        return Library.number();
    }

    @Override
    public double getDouble(int number) throws SQLException {
        step();
        return Library.number();
    }

    @Override
    public BigDecimal getBigDecimal(int number, int number2) throws SQLException {
        step();
        return SqlThings.bigDecimal();
    }

    @Override
    public byte[] getBytes(int number) throws SQLException {
        step();
        return new byte[Library.number()];
    }

    @Override
    public Date getDate(int number) throws SQLException {
        step();
        return SqlThings.date();
    }

    @Override
    public Time getTime(int number) throws SQLException {
        step();
        return SqlThings.time();
    }

    @Override
    public Timestamp getTimestamp(int number) throws SQLException {
        step();
        return SqlThings.timestamp();
    }

    @Override
    public Object getObject(int number) throws SQLException {
        step();
        return Library.any() ? added() : picked();
    }

    @Override
    public BigDecimal getBigDecimal(int number) throws SQLException {
        step();
        return SqlThings.bigDecimal();
    }

    @Override
    public Object getObject(int number, Map<String, Class<?>> map) throws SQLException {
        step();
        return Library.any() ? picked() : SqlThings.typed();
    }

    @Override
    public Ref getRef(int number) throws SQLException {
        step();
        return SqlThings.ref();
    }

    @Override
    public Blob getBlob(int number) throws SQLException {
        step();
        return SqlThings.blob();
    }

    @Override
    public Clob getClob(int number) throws SQLException {
        step();
        return SqlThings.clob();
    }

    @Override
    public Array getArray(int number) throws SQLException {
        step();
        return SqlThings.array();
    }

    @Override
    public Date getDate(int number, Calendar calendar) throws SQLException {
        step();
        hold(calendar);
        return SqlThings.date();
    }

    @Override
    public Time getTime(int number, Calendar calendar) throws SQLException {
        step();
        hold(calendar);
        return SqlThings.time();
    }

    @Override
    public Timestamp getTimestamp(int number, Calendar calendar) throws SQLException {
        step();
        hold(calendar);
        return SqlThings.timestamp();
    }

    @Override
    public void registerOutParameter(int number, int number2, String text) throws SQLException {
        step();
    }

    @Override
    public void registerOutParameter(String text, int number) throws SQLException {
        step();
    }

    @Override
    public void registerOutParameter(String text, int number, int number2) throws SQLException {
        step();
    }

    @Override
    public void registerOutParameter(String text, int number, String text2) throws SQLException {
        step();
    }

    @Override
    public URL getURL(int number) throws SQLException {
        step();
        return SqlThings.url();
    }

    @Override
    public void setURL(String text, URL uRL) throws SQLException {
        step();
        hold(uRL);
    }

    @Override
    public void setNull(String text, int number) throws SQLException {
        step();
    }

    @Override
    public void setBoolean(String text, boolean flag) throws SQLException {
        step();
    }

    @Override
    public void setByte(String text, byte one) throws SQLException {
        step();
    }

    @Override
    public void setShort(String text, short small) throws SQLException {
        step();
    }

    @Override
    public void setInt(String text, int number) throws SQLException {
        step();
    }

    @Override
    public void setLong(String text, long count) throws SQLException {
        step();
    }

    @Override
    public void setFloat(String text, float real) throws SQLException {
        step();
    }

    @Override
    public void setDouble(String text, double real) throws SQLException {
        step();
    }

    @Override
    public void setBigDecimal(String text, BigDecimal bigDecimal) throws SQLException {
        step();
        hold(bigDecimal);
    }

    @Override
    public void setString(String text, String text2) throws SQLException {
        step();
    }

    @Override
    public void setBytes(String text, byte[] bytes) throws SQLException {
        step();
    }

    @Override
    public void setDate(String text, Date date) throws SQLException {
        step();
        hold(date);
    }

    @Override
    public void setTime(String text, Time time) throws SQLException {
        step();
        hold(time);
    }

    @Override
    public void setTimestamp(String text, Timestamp timestamp) throws SQLException {
        step();
        hold(timestamp);
    }

    @Override
    public void setAsciiStream(String text, InputStream in, int number) throws SQLException {
        step();
        hold(in);
    }

    @Override
    public void setBinaryStream(String text, InputStream in, int number) throws SQLException {
        step();
        hold(in);
    }

    @Override
    public void setObject(String text, Object value, int number, int number2) throws SQLException {
        step();
        hold(value);
    }

    @Override
    public void setObject(String text, Object value, int number) throws SQLException {
        step();
        hold(value);
    }

    @Override
    public void setObject(String text, Object value) throws SQLException {
        step();
        hold(value);
    }

    @Override
    public void setCharacterStream(String text, Reader in, int number) throws SQLException {
        step();
        hold(in);
    }

    @Override
    public void setDate(String text, Date date, Calendar calendar) throws SQLException {
        step();
        hold(date);
        hold(calendar);
    }

    @Override
    public void setTime(String text, Time time, Calendar calendar) throws SQLException {
        step();
        hold(time);
        hold(calendar);
    }

    @Override
    public void setTimestamp(String text, Timestamp timestamp, Calendar calendar) throws SQLException {
        step();
        hold(timestamp);
        hold(calendar);
    }

    @Override
    public void setNull(String text, int number, String text2) throws SQLException {
        step();
    }

    @Override
    public String getString(String text) throws SQLException {
        step();
        return Library.any() ? null : Library.text();
    }

    @Override
    public boolean getBoolean(String text) throws SQLException {
        step();
        return Library.any();
    }

    @Override
    public byte getByte(String text) throws SQLException {
        step();
        return (byte) Library.number();
    }

    @Override
    public short getShort(String text) throws SQLException {
        step();
        return (short) Library.number();
    }

    @Override
    public int getInt(String text) throws SQLException {
        step();
        return Library.number();
    }

    @Override
    public long getLong(String text) throws SQLException {
        step();
        return Library.number();
    }

    @Override
    public float getFloat(String text) throws SQLException {
        step();
        return Library.number();
    }

    @Override
    public double getDouble(String text) throws SQLException {
        step();
        return Library.number();
    }

    @Override
    public byte[] getBytes(String text) throws SQLException {
        step();
        return new byte[Library.number()];
    }

    @Override
    public Date getDate(String text) throws SQLException {
        step();
        return SqlThings.date();
    }

    @Override
    public Time getTime(String text) throws SQLException {
        step();
        return SqlThings.time();
    }

    @Override
    public Timestamp getTimestamp(String text) throws SQLException {
        step();
        return SqlThings.timestamp();
    }

    @Override
    public Object getObject(String text) throws SQLException {
        step();
        return Library.any() ? added() : picked();
    }

    @Override
    public BigDecimal getBigDecimal(String text) throws SQLException {
        step();
        return SqlThings.bigDecimal();
    }

    @Override
    public Object getObject(String text, Map<String, Class<?>> map) throws SQLException {
        step();
        return Library.any() ? picked() : SqlThings.typed();
    }

    @Override
    public Ref getRef(String text) throws SQLException {
        step();
        return SqlThings.ref();
    }

    @Override
    public Blob getBlob(String text) throws SQLException {
        step();
        return SqlThings.blob();
    }

    @Override
    public Clob getClob(String text) throws SQLException {
        step();
        return SqlThings.clob();
    }

    @Override
    public Array getArray(String text) throws SQLException {
        step();
        return SqlThings.array();
    }

    @Override
    public Date getDate(String text, Calendar calendar) throws SQLException {
        step();
        hold(calendar);
        return SqlThings.date();
    }

    @Override
    public Time getTime(String text, Calendar calendar) throws SQLException {
        step();
        hold(calendar);
        return SqlThings.time();
    }

    @Override
    public Timestamp getTimestamp(String text, Calendar calendar) throws SQLException {
        step();
        hold(calendar);
        return SqlThings.timestamp();
    }

    @Override
    public URL getURL(String text) throws SQLException {
        step();
        return SqlThings.url();
    }

    @Override
    public RowId getRowId(int number) throws SQLException {
        step();
        return SqlThings.rowId();
    }

    @Override
    public RowId getRowId(String text) throws SQLException {
        step();
        return SqlThings.rowId();
    }

    @Override
    public void setRowId(String text, RowId rowId) throws SQLException {
        step();
        hold(rowId);
    }

    @Override
    public void setNString(String text, String text2) throws SQLException {
        step();
    }

    @Override
    public void setNCharacterStream(String text, Reader in, long count) throws SQLException {
        step();
        hold(in);
    }

    @Override
    public void setNClob(String text, NClob clob) throws SQLException {
        step();
        hold(clob);
    }

    @Override
    public void setClob(String text, Reader in, long count) throws SQLException {
        step();
        hold(in);
    }

    @Override
    public void setBlob(String text, InputStream in, long count) throws SQLException {
        step();
        hold(in);
    }

    @Override
    public void setNClob(String text, Reader in, long count) throws SQLException {
        step();
        hold(in);
    }

    @Override
    public NClob getNClob(int number) throws SQLException {
        step();
        return SqlThings.nClob();
    }

    @Override
    public NClob getNClob(String text) throws SQLException {
        step();
        return SqlThings.nClob();
    }

    @Override
    public void setSQLXML(String text, SQLXML xml) throws SQLException {
        step();
        hold(xml);
    }

    @Override
    public SQLXML getSQLXML(int number) throws SQLException {
        step();
        return SqlThings.sqlXML();
    }

    @Override
    public SQLXML getSQLXML(String text) throws SQLException {
        step();
        return SqlThings.sqlXML();
    }

    @Override
    public String getNString(int number) throws SQLException {
        step();
        return Library.any() ? null : Library.text();
    }

    @Override
    public String getNString(String text) throws SQLException {
        step();
        return Library.any() ? null : Library.text();
    }

    @Override
    public Reader getNCharacterStream(int number) throws SQLException {
        step();
        return held(SqlThings.reader());
    }

    @Override
    public Reader getNCharacterStream(String text) throws SQLException {
        step();
        return held(SqlThings.reader());
    }

    @Override
    public Reader getCharacterStream(int number) throws SQLException {
        step();
        return held(SqlThings.reader());
    }

    @Override
    public Reader getCharacterStream(String text) throws SQLException {
        step();
        return held(SqlThings.reader());
    }

    @Override
    public void setBlob(String text, Blob blob) throws SQLException {
        step();
        hold(blob);
    }

    @Override
    public void setClob(String text, Clob clob) throws SQLException {
        step();
        hold(clob);
    }

    @Override
    public void setAsciiStream(String text, InputStream in, long count) throws SQLException {
        step();
        hold(in);
    }

    @Override
    public void setBinaryStream(String text, InputStream in, long count) throws SQLException {
        step();
        hold(in);
    }

    @Override
    public void setCharacterStream(String text, Reader in, long count) throws SQLException {
        step();
        hold(in);
    }

    @Override
    public void setAsciiStream(String text, InputStream in) throws SQLException {
        step();
        hold(in);
    }

    @Override
    public void setBinaryStream(String text, InputStream in) throws SQLException {
        step();
        hold(in);
    }

    @Override
    public void setCharacterStream(String text, Reader in) throws SQLException {
        step();
        hold(in);
    }

    @Override
    public void setNCharacterStream(String text, Reader in) throws SQLException {
        step();
        hold(in);
    }

    @Override
    public void setClob(String text, Reader in) throws SQLException {
        step();
        hold(in);
    }

    @Override
    public void setBlob(String text, InputStream in) throws SQLException {
        step();
        hold(in);
    }

    @Override
    public void setNClob(String text, Reader in) throws SQLException {
        step();
        hold(in);
    }

    @Override
    public <T> T getObject(int number, Class<T> type) throws SQLException {
        step();
        return SqlThings.unwrapped(Library.any() ? added() : picked());
    }

    @Override
    public <T> T getObject(String text, Class<T> type) throws SQLException {
        step();
        return SqlThings.unwrapped(Library.any() ? added() : picked());
    }

    @Override
    public void setObject(String text, Object value, SQLType kind, int number) throws SQLException {
        step();
        hold(value);
    }

    @Override
    public void setObject(String text, Object value, SQLType kind) throws SQLException {
        step();
        hold(value);
    }

    @Override
    public void registerOutParameter(int number, SQLType kind) throws SQLException {
        step();
    }

    @Override
    public void registerOutParameter(int number, SQLType kind, int number2) throws SQLException {
        step();
    }

    @Override
    public void registerOutParameter(int number, SQLType kind, String text) throws SQLException {
        step();
    }

    @Override
    public void registerOutParameter(String text, SQLType kind) throws SQLException {
        step();
    }

    @Override
    public void registerOutParameter(String text, SQLType kind, int number) throws SQLException {
        step();
    }

    @Override
    public void registerOutParameter(String text, SQLType kind, String text2) throws SQLException {
        step();
    }
}
