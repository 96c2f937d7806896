package library.sql;

import java.io.InputStream;
import java.io.Reader;
import java.math.BigDecimal;
import java.net.URL;
import java.sql.Array;
import java.sql.Blob;
import java.sql.Clob;
import java.sql.Date;
import java.sql.NClob;
import java.sql.ParameterMetaData;
import java.sql.Ref;
import java.sql.ResultSetMetaData;
import java.sql.RowId;
import java.sql.RowIdLifetime;
import java.sql.SQLClientInfoException;
import java.sql.SQLData;
import java.sql.SQLException;
import java.sql.SQLInput;
import java.sql.SQLOutput;
import java.sql.SQLWarning;
import java.sql.SQLXML;
import java.sql.Savepoint;
import java.sql.Time;
import java.sql.Timestamp;
import java.util.Map;
import java.util.Properties;
import library.ByName;
import library.Library;

/** What a data base gives that is new each time, and how it fails. */
final class SqlThings {
    private SqlThings() {
    }

    /** Does nothing, or throws an SQLException or one below it. */
    static native void mayFail() throws SQLException;

    static native void mayRefuse() throws SQLClientInfoException;

    static native Array array();

    static native BigDecimal bigDecimal();

    static native Blob blob();

    static native Clob clob();

    static native Date date();

    static native InputStream inputStream();

    static native Map<String, Class<?>> map();

    static native NClob nClob();

    static native Object object();

    static native ParameterMetaData parameterMetaData();

    static native Properties properties();

    static native Reader reader();

    static native Ref ref();

    static native ResultSetMetaData resultSetMetaData();

    static native RowId rowId();

    static native RowIdLifetime rowIdLifetime();

    static native SQLInput sqlInput();

    static native SQLOutput sqlOutput();

    static native SQLWarning sqlWarning();

    static native SQLXML sqlXML();

    static native Savepoint savepoint();

    static native Time time();

    static native Timestamp timestamp();

    static native URL url();

    /** An object itself, or what it wraps. */
    @SuppressWarnings("unchecked")
    static <T> T unwrapped(Object self) {
        return (T) (Library.any() ? self : object());
    }

    /** An object of a class of the program, made by its name and read. */
    static Object typed() throws SQLException {
        Object made = ByName.make();
        if (made instanceof SQLData && Library.any()) {
            ((SQLData) made).readSQL(sqlInput(), Library.text());
        }
        return made;
    }
}
