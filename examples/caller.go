// Posts an event by version 2 of AWS's SDK for Go, and prints its id.
//
// Usage: caller PORT FUNCTION PAYLOAD
package main

import (
	"context"
	"fmt"
	"log"
	"os"

	"github.com/aws/aws-sdk-go-v2/aws/middleware"
	"github.com/aws/aws-sdk-go-v2/credentials"
	"github.com/aws/aws-sdk-go-v2/service/lambda"
	"github.com/aws/aws-sdk-go-v2/service/lambda/types"
)

func main() {
	if len(os.Args) != 4 {
		log.Fatal("usage: caller PORT FUNCTION PAYLOAD")
	}
	client := lambda.New(lambda.Options{
		Region:           "us-east-2",
		Credentials:      credentials.NewStaticCredentialsProvider("any", "any", ""),
		EndpointResolver: lambda.EndpointResolverFromURL("http://127.0.0.1:" + os.Args[1]),
	})
	invoked, err := client.Invoke(context.Background(), &lambda.InvokeInput{
		FunctionName:   &os.Args[2],
		InvocationType: types.InvocationTypeEvent,
		Payload:        []byte(os.Args[3]),
	})
	if err != nil {
		log.Fatal(err)
	}
	event, _ := middleware.GetRequestIDMetadata(invoked.ResultMetadata)
	fmt.Println(invoked.StatusCode, event)
}
