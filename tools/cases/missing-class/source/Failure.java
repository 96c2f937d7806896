import java.io.IOException;

/** Not in the jar. */
final class Failure extends IOException {
}
