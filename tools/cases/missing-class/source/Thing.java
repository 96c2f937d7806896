/** Not in the jar. */
final class Thing {
}
