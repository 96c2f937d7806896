package library.sql;

import java.io.IOException;
import java.io.InputStream;
import java.io.Reader;
import java.sql.Array;
import java.sql.Blob;
import java.sql.Clob;
import java.sql.SQLData;
import java.sql.SQLException;
import java.sql.Struct;
import java.util.Calendar;
import java.util.Date;
import library.Elements;
import library.Library;
import library.Sources;

/** Holds the values that it is given until they are used, and the streams that it gives until its next step. */
class Held {
    private Value values;
    private Value streams;

    /** A value, with those before it. */
    private abstract static class Value {
        Value before;

        /** Uses the value: reads it, or asks it. */
        abstract void use() throws SQLException, IOException;

        void close() throws IOException {
        }

        Object object() {
            return null;
        }
    }

    /** A stream. */
    private static final class Bytes extends Value {
        private final InputStream value;

        Bytes(InputStream value) {
            this.value = value;
        }

        @Override
        void use() throws IOException {
            Sources.read(value);
        }

        @Override
        void close() throws IOException {
            Sources.close(value);
        }
    }

    /** A reader. */
    private static final class Text extends Value {
        private final Reader value;

        Text(Reader value) {
            this.value = value;
        }

        @Override
        void use() throws IOException {
            Sources.read(value);
        }

        @Override
        void close() throws IOException {
            Sources.close(value);
        }
    }

    /** A large value. */
    private static final class Large extends Value {
        private final Object value;

        Large(Object value) {
            this.value = value;
        }

        @Override
        void use() throws SQLException, IOException {
            if (value instanceof Blob) {
                useBlob((Blob) value);
            }
            if (value instanceof Clob) {
                useClob((Clob) value);
            }
        }

        @Override
        Object object() {
            return value;
        }
    }

    /** Another object. */
    private static final class Other extends Value {
        private final Object value;

        Other(Object value) {
            this.value = value;
        }

        @Override
        void use() throws SQLException, IOException {
            Held.use(value);
        }

        @Override
        Object object() {
            return value;
        }
    }

    private void take(Value value) {
        value.before = values;
        values = value;
    }

    final void hold(InputStream value) {
        take(new Bytes(value));
    }

    final void hold(Reader value) {
        take(new Text(value));
    }

    final void hold(Blob value) {
        take(new Large(value));
    }

    final void hold(Clob value) {
        take(new Large(value));
    }

    final void hold(Object value) {
        take(new Other(value));
    }

    private void give(Value stream) {
        stream.before = streams;
        streams = stream;
    }

    final InputStream held(InputStream stream) {
        give(new Bytes(stream));
        return stream;
    }

    final Reader held(Reader stream) {
        give(new Text(stream));
        return stream;
    }

    /** An object of the data base, or one that was held. */
    final Object picked() {
        Value each = values;
        while (each != null && Library.any()) {
            each = each.before;
        }
        return each == null || Library.any() ? SqlThings.object() : each.object();
    }

    /** Fails, or goes on, and closes the streams then. */
    final void step() throws SQLException {
        SqlThings.mayFail();
        closeStreams();
    }

    final void closeStreams() throws SQLException {
        try {
            for (Value each = streams; each != null; each = each.before) {
                each.close();
            }
        } catch (IOException fault) {
            SqlThings.mayFail();
        }
    }

    /** Uses what was held, or some of it. */
    final void useHeld() throws SQLException {
        try {
            for (Value each = values; each != null; each = each.before) {
                if (Library.any()) {
                    each.use();
                    each.close();
                }
            }
        } catch (IOException fault) {
            SqlThings.mayFail();
        }
    }

    private static void use(Object value) throws SQLException, IOException {
        if (value instanceof InputStream) {
            Sources.read((InputStream) value);
            Sources.close((InputStream) value);
        }
        if (value instanceof Reader) {
            Sources.read((Reader) value);
            Sources.close((Reader) value);
        }
        if (value instanceof Blob) {
            useBlob((Blob) value);
        }
        if (value instanceof Clob) {
            useClob((Clob) value);
        }
        if (value instanceof SQLData) {
            ((SQLData) value).getSQLTypeName();
            ((SQLData) value).writeSQL(SqlThings.sqlOutput());
        }
        if (value instanceof Array) {
            ((Array) value).getBaseTypeName();
            ((Array) value).getBaseType();
            ((Array) value).getArray();
        }
        if (value instanceof Struct) {
            ((Struct) value).getSQLTypeName();
            ((Struct) value).getAttributes();
        }
        if (value instanceof Date) {
            ((Date) value).getTime();
        }
        if (value instanceof Calendar) {
            ((Calendar) value).getTimeZone();
            ((Calendar) value).getTimeInMillis();
            ((Calendar) value).get(Library.number());
            ((Calendar) value).clone();
        }
        Elements.text(value);
    }

    private static void useBlob(Blob blob) throws SQLException, IOException {
        blob.length();
        blob.getBytes(Library.number(), Library.number());
        InputStream in = blob.getBinaryStream();
        Sources.read(in);
        Sources.close(in);
    }

    private static void useClob(Clob clob) throws SQLException, IOException {
        clob.length();
        clob.getSubString(Library.number(), Library.number());
        Reader in = clob.getCharacterStream();
        Sources.read(in);
        Sources.close(in);
    }

    /** As that of java.lang.Object. */
    @Override
    public String toString() {
        hashCode();
        return Library.text();
    }
}
