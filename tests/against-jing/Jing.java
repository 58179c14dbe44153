import com.thaiopensource.util.PropertyMapBuilder;
import com.thaiopensource.validate.ValidateProperty;
import com.thaiopensource.validate.SchemaReader;
import com.thaiopensource.validate.ValidationDriver;
import com.thaiopensource.validate.prop.rng.RngProperty;
import com.thaiopensource.validate.rng.CompactSchemaReader;
import com.thaiopensource.validate.rng.SAXSchemaReader;
import java.io.BufferedReader;
import java.io.File;
import java.io.InputStreamReader;
import java.nio.file.Files;
import java.nio.file.Paths;
import java.util.ArrayList;
import java.util.Arrays;
import java.util.List;
import org.xml.sax.ErrorHandler;
import org.xml.sax.SAXParseException;

/**
 * Reads paths of schemas in the compact syntax, or in the XML syntax where they end in .rng, one a line. Writes a line for each: "good" and, for each document *.xml beside the schema in the
 * order of names, 1 if it is valid and 0 if it isn't; or "bad" and the errors, each with its line and column. Where a path is followed by a tab and
 * a folder, the documents are in that one, and the simplified form of a good schema is written beside it, to its path and ".simplified".
 */
public class Jing {
  private static class Errors implements ErrorHandler {
    final List<String> texts = new ArrayList<>();

    public void warning(SAXParseException error) {}

    public void error(SAXParseException error) {
      texts.add(error.getLineNumber() + ":" + error.getColumnNumber() + " " + error.getMessage().replace('\t', ' '));
    }

    public void fatalError(SAXParseException error) {
      error(error);
    }
  }

  private static String verdict(String path, String folder) throws Exception {
    File schema = new File(path);
    Errors errors = new Errors();
    PropertyMapBuilder properties = new PropertyMapBuilder();
    properties.put(ValidateProperty.ERROR_HANDLER, errors);
    SchemaReader reader = path.endsWith(".rng") ? SAXSchemaReader.getInstance() : CompactSchemaReader.getInstance();
    ValidationDriver driver = new ValidationDriver(properties.toPropertyMap(), reader);
    if (!driver.loadSchema(ValidationDriver.fileInputSource(schema))) {
      return "bad\t" + String.join("\t", errors.texts);
    }
    if (folder != null) {
      String simplified = driver.getSchemaProperties().get(RngProperty.SIMPLIFIED_SCHEMA);
      Files.write(Paths.get(path + ".simplified"), simplified.getBytes("UTF-8"));
    }
    File place = folder == null ? schema.getParentFile() : new File(folder);
    File[] documents = place.listFiles((whole, name) -> name.endsWith(".xml"));
    Arrays.sort(documents);
    StringBuilder valid = new StringBuilder("good\t");
    for (File document : documents) {
      valid.append(driver.validate(ValidationDriver.fileInputSource(document)) ? '1' : '0');
    }
    return valid.toString();
  }

  public static void main(String[] words) throws Exception {
    BufferedReader in = new BufferedReader(new InputStreamReader(System.in));
    for (String path = in.readLine(); path != null; path = in.readLine()) {
      String answer;
      try {
        int tab = path.indexOf('\t');
        answer = tab < 0 ? verdict(path, null) : verdict(path.substring(0, tab), path.substring(tab + 1));
      } catch (Exception | StackOverflowError fault) {
        answer = "bad\t0:0 " + fault;
      }
      System.out.println(answer.replaceAll("[\\r\\n]", " "));
    }
  }
}
