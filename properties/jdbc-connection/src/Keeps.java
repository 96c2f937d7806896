import java.sql.Connection;
import java.sql.DriverManager;
import java.sql.SQLException;
import java.sql.Statement;

/** Closes a connection by which nothing was done, and works by one that stays open until the program ends. */
public final class Keeps {
    private Keeps() {
    }

    private static boolean answers(String url) {
        try {
            DriverManager.getConnection(url).close();
            return true;
        } catch (SQLException e) {
            return false;
        }
    }

    public static void main(String[] args) throws SQLException {
        if (args.length == 0 || !answers(args[0])) {
            return;
        }
        Connection connection = DriverManager.getConnection(args[0]);
        for (int i = 1; i < args.length; i++) {
            try (Statement statement = connection.createStatement()) {
                System.out.println(statement.executeUpdate(args[i]));
            }
            connection.commit();
        }
    }
}
