package library.sql;

import java.io.InputStream;
import java.io.Reader;
import java.math.BigDecimal;
import java.net.URL;
import java.sql.Array;
import java.sql.Blob;
import java.sql.Clob;
import java.sql.Date;
import java.sql.NClob;
import java.sql.ParameterMetaData;
import java.sql.PreparedStatement;
import java.sql.Ref;
import java.sql.ResultSet;
import java.sql.ResultSetMetaData;
import java.sql.RowId;
import java.sql.SQLException;
import java.sql.SQLType;
import java.sql.SQLXML;
import java.sql.Time;
import java.sql.Timestamp;
import java.util.Calendar;
import library.Library;

/** A statement with parameters, which it uses when it runs. */
public class LibraryPreparedStatement extends LibraryStatement implements PreparedStatement {
    LibraryPreparedStatement(LibraryConnection connection) {
        super(connection);
    }

    @Override
    public ResultSet executeQuery() throws SQLException {
        run();
        return result();
    }

    @Override
    public int executeUpdate() throws SQLException {
        run();
        return Library.number();
    }

    @Override
    public void setNull(int number, int number2) throws SQLException {
        SqlThings.mayFail();
    }

    @Override
    public void setBoolean(int number, boolean flag) throws SQLException {
        SqlThings.mayFail();
    }

    @Override
    public void setByte(int number, byte one) throws SQLException {
        SqlThings.mayFail();
    }

    @Override
    public void setShort(int number, short small) throws SQLException {
        SqlThings.mayFail();
    }

    @Override
    public void setInt(int number, int number2) throws SQLException {
        SqlThings.mayFail();
    }

    @Override
    public void setLong(int number, long count) throws SQLException {
        SqlThings.mayFail();
    }

    @Override
    public void setFloat(int number, float real) throws SQLException {
        SqlThings.mayFail();
    }

    @Override
    public void setDouble(int number, double real) throws SQLException {
        SqlThings.mayFail();
    }

    @Override
    public void setBigDecimal(int number, BigDecimal bigDecimal) throws SQLException {
        SqlThings.mayFail();
        hold(bigDecimal);
    }

    @Override
    public void setString(int number, String text) throws SQLException {
        SqlThings.mayFail();
    }

    @Override
    public void setBytes(int number, byte[] bytes) throws SQLException {
        SqlThings.mayFail();
    }

    @Override
    public void setDate(int number, Date date) throws SQLException {
        SqlThings.mayFail();
        hold(date);
    }

    @Override
    public void setTime(int number, Time time) throws SQLException {
        SqlThings.mayFail();
        hold(time);
    }

    @Override
    public void setTimestamp(int number, Timestamp timestamp) throws SQLException {
        SqlThings.mayFail();
        hold(timestamp);
    }

    @Override
    public void setAsciiStream(int number, InputStream in, int number2) throws SQLException {
        SqlThings.mayFail();
        hold(in);
    }

    @Override
    public void setUnicodeStream(int number, InputStream in, int number2) throws SQLException {
        SqlThings.mayFail();
        hold(in);
    }

    @Override
    public void setBinaryStream(int number, InputStream in, int number2) throws SQLException {
        SqlThings.mayFail();
        hold(in);
    }

    @Override
    public void clearParameters() throws SQLException {
        SqlThings.mayFail();
    }

    @Override
    public void setObject(int number, Object value, int number2) throws SQLException {
        SqlThings.mayFail();
        hold(value);
    }

    @Override
    public void setObject(int number, Object value) throws SQLException {
        SqlThings.mayFail();
        hold(value);
    }

    @Override
    public boolean execute() throws SQLException {
        run();
        if (Library.any()) {
            result();
        }
        return Library.any();
    }

    @Override
    public void addBatch() throws SQLException {
        SqlThings.mayFail();
    }

    @Override
    public void setCharacterStream(int number, Reader in, int number2) throws SQLException {
        SqlThings.mayFail();
        hold(in);
    }

    @Override
    public void setRef(int number, Ref ref) throws SQLException {
        SqlThings.mayFail();
        hold(ref);
    }

    @Override
    public void setBlob(int number, Blob blob) throws SQLException {
        SqlThings.mayFail();
        hold(blob);
    }

    @Override
    public void setClob(int number, Clob clob) throws SQLException {
        SqlThings.mayFail();
        hold(clob);
    }

    @Override
    public void setArray(int number, Array array) throws SQLException {
        SqlThings.mayFail();
        hold(array);
    }

    @Override
    public ResultSetMetaData getMetaData() throws SQLException {
        SqlThings.mayFail();
        return SqlThings.resultSetMetaData();
    }

    @Override
    public void setDate(int number, Date date, Calendar calendar) throws SQLException {
        SqlThings.mayFail();
        hold(date);
        hold(calendar);
    }

    @Override
    public void setTime(int number, Time time, Calendar calendar) throws SQLException {
        SqlThings.mayFail();
        hold(time);
        hold(calendar);
    }

    @Override
    public void setTimestamp(int number, Timestamp timestamp, Calendar calendar) throws SQLException {
        SqlThings.mayFail();
        hold(timestamp);
        hold(calendar);
    }

    @Override
    public void setNull(int number, int number2, String text) throws SQLException {
        SqlThings.mayFail();
    }

    @Override
    public void setURL(int number, URL uRL) throws SQLException {
        SqlThings.mayFail();
        hold(uRL);
    }

    @Override
    public ParameterMetaData getParameterMetaData() throws SQLException {
        SqlThings.mayFail();
        return SqlThings.parameterMetaData();
    }

    @Override
    public void setRowId(int number, RowId rowId) throws SQLException {
        SqlThings.mayFail();
        hold(rowId);
    }

    @Override
    public void setNString(int number, String text) throws SQLException {
        SqlThings.mayFail();
    }

    @Override
    public void setNCharacterStream(int number, Reader in, long count) throws SQLException {
        SqlThings.mayFail();
        hold(in);
    }

    @Override
    public void setNClob(int number, NClob clob) throws SQLException {
        SqlThings.mayFail();
        hold(clob);
    }

    @Override
    public void setClob(int number, Reader in, long count) throws SQLException {
        SqlThings.mayFail();
        hold(in);
    }

    @Override
    public void setBlob(int number, InputStream in, long count) throws SQLException {
        SqlThings.mayFail();
        hold(in);
    }

    @Override
    public void setNClob(int number, Reader in, long count) throws SQLException {
        SqlThings.mayFail();
        hold(in);
    }

    @Override
    public void setSQLXML(int number, SQLXML xml) throws SQLException {
        SqlThings.mayFail();
        hold(xml);
    }

    @Override
    public void setObject(int number, Object value, int number2, int number3) throws SQLException {
        SqlThings.mayFail();
        hold(value);
    }

    @Override
    public void setAsciiStream(int number, InputStream in, long count) throws SQLException {
        SqlThings.mayFail();
        hold(in);
    }

    @Override
    public void setBinaryStream(int number, InputStream in, long count) throws SQLException {
        SqlThings.mayFail();
        hold(in);
    }

    @Override
    public void setCharacterStream(int number, Reader in, long count) throws SQLException {
        SqlThings.mayFail();
        hold(in);
    }

    @Override
    public void setAsciiStream(int number, InputStream in) throws SQLException {
        SqlThings.mayFail();
        hold(in);
    }

    @Override
    public void setBinaryStream(int number, InputStream in) throws SQLException {
        SqlThings.mayFail();
        hold(in);
    }

    @Override
    public void setCharacterStream(int number, Reader in) throws SQLException {
        SqlThings.mayFail();
        hold(in);
    }

    @Override
    public void setNCharacterStream(int number, Reader in) throws SQLException {
        SqlThings.mayFail();
        hold(in);
    }

    @Override
    public void setClob(int number, Reader in) throws SQLException {
        SqlThings.mayFail();
        hold(in);
    }

    @Override
    public void setBlob(int number, InputStream in) throws SQLException {
        SqlThings.mayFail();
        hold(in);
    }

    @Override
    public void setNClob(int number, Reader in) throws SQLException {
        SqlThings.mayFail();
        hold(in);
    }

    @Override
    public void setObject(int number, Object value, SQLType kind, int number2) throws SQLException {
        SqlThings.mayFail();
        hold(value);
    }

    @Override
    public void setObject(int number, Object value, SQLType kind) throws SQLException {
        SqlThings.mayFail();
        hold(value);
    }

    @Override
    public long executeLargeUpdate() throws SQLException {
        run();
        return Library.number();
    }
}
